# With Y in, Z conflicts unless W is in, which two packages provide: the first is taken.
repo system 0 empty
repo available 0 testtags <inline>
#>=Pkg: P 1 1 noarch
#>=Con: X <UNLESS> Y <ELSE> (Z <UNLESS> W)
#>=Pkg: X 1 1 noarch
#>=Pkg: Y 1 1 noarch
#>=Pkg: Z 1 1 noarch
#>=Pkg: wa 1 1 noarch
#>=Prv: W
#>=Pkg: wb 1 1 noarch
#>=Prv: W
system x86_64 rpm system
job install name P
job install name X
job install name Y
job install name Z
result transaction,problems <inline>
#>install P-1-1.noarch@available
#>install X-1-1.noarch@available
#>install Y-1-1.noarch@available
#>install Z-1-1.noarch@available
#>install wa-1-1.noarch@available
