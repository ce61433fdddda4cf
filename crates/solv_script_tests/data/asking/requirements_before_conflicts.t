# A package's requirements are asked for before its conflicts: yb serves both.
repo system 0 empty
repo available 0 testtags <inline>
#>=Pkg: P 1 1 noarch
#>=Req: R
#>=Con: X <UNLESS> Y
#>=Pkg: X 1 1 noarch
#>=Pkg: ya 1 1 noarch
#>=Prv: Y
#>=Pkg: yb 1 1 noarch
#>=Prv: Y
#>=Prv: R
#>=Pkg: rz 1 1 noarch
#>=Prv: R
system x86_64 rpm system
job install name P
job install name X
result transaction,problems <inline>
#>install P-1-1.noarch@available
#>install X-1-1.noarch@available
#>install yb-1-1.noarch@available
