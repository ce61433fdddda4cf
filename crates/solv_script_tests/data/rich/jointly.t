# One package has to meet both operands of +.
repo system 0 empty
repo available 0 testtags <inline>
#>=Pkg: R 1 1 noarch
#>=Req: A + B
#>=Pkg: p1 1 1 noarch
#>=Prv: A
#>=Pkg: p2 1 1 noarch
#>=Prv: B
#>=Pkg: p3 1 1 noarch
#>=Prv: A
#>=Prv: B
system x86_64 rpm system
job install name R
result transaction,problems <inline>
#>install R-1-1.noarch@available
#>install p3-1-1.noarch@available
