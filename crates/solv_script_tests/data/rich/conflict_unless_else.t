# With Y in, Z conflicts unless W is in: W is taken, and X is not looked at.
repo system 0 empty
repo available 0 testtags <inline>
#>=Pkg: P 1 1 noarch
#>=Con: X <UNLESS> Y <ELSE> (Z <UNLESS> W)
#>=Pkg: W 1 1 noarch
#>=Pkg: X 1 1 noarch
#>=Pkg: Y 1 1 noarch
#>=Pkg: Z 1 1 noarch
system x86_64 rpm system
job install name P
job install name Y
job install name Z
result transaction,reason <inline>
#>install P-1-1.noarch@available
#>install W-1-1.noarch@available
#>install Y-1-1.noarch@available
#>install Z-1-1.noarch@available
#>reason P-1-1.noarch@available follows
#>reason W-1-1.noarch@available follows
#>reason Y-1-1.noarch@available follows
#>reason Z-1-1.noarch@available follows
