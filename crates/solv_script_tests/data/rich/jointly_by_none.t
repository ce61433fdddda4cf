# No package meets both operands of +.
repo system 0 empty
repo available 0 testtags <inline>
#>=Pkg: R 1 1 noarch
#>=Req: A + B
#>=Pkg: p1 1 1 noarch
#>=Prv: A
#>=Pkg: p2 1 1 noarch
#>=Prv: B
system x86_64 rpm system
job install name R
result transaction,problems <inline>
#>problem 1 info conflicting requests
#>problem 1 info nothing provides A + B needed by R-1-1.noarch@available
#>problem 1 solution 1 deljob install name R
