# A conflict with two conditions: the condition of the first operand may be taken, and its package comes first.
repo system 0 empty
repo available 0 testtags <inline>
#>=Pkg: P 1 1 noarch
#>=Con: (Z <UNLESS> Y) & (X <UNLESS> W)
#>=Pkg: X 1 1 noarch
#>=Pkg: Y 1 1 noarch
#>=Pkg: Z 1 1 noarch
#>=Pkg: W 1 1 noarch
system x86_64 rpm system
job install name P
job install name X
job install name Z
result transaction,problems <inline>
#>install P-1-1.noarch@available
#>install X-1-1.noarch@available
#>install Y-1-1.noarch@available
#>install Z-1-1.noarch@available
