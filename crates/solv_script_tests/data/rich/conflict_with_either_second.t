# A conflict with one of two: the second operand holds, and the first does not.
repo system 0 empty
repo available 0 testtags <inline>
#>=Pkg: P 1 1 noarch
#>=Con: (X <UNLESS> Y) | (Z <UNLESS> W)
#>=Pkg: X 1 1 noarch
#>=Pkg: Z 1 1 noarch
#>=Pkg: wa 1 1 noarch
#>=Prv: W
#>=Pkg: wb 1 1 noarch
#>=Prv: W
#>=Pkg: ya 1 1 noarch
#>=Prv: Y
#>=Pkg: yb 1 1 noarch
#>=Prv: Y
system x86_64 rpm system
job install name P
job install name Z
result transaction,problems <inline>
#>install P-1-1.noarch@available
#>install Z-1-1.noarch@available
#>install wa-1-1.noarch@available
