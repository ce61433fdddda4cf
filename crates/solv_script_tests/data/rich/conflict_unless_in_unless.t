# A condition in the first operand of a condition: both may be taken, and the inner one comes first.
repo system 0 empty
repo available 0 testtags <inline>
#>=Pkg: P 1 1 noarch
#>=Con: (X <UNLESS> V) <UNLESS> Y
#>=Pkg: V 1 1 noarch
#>=Pkg: X 1 1 noarch
#>=Pkg: Y 1 1 noarch
system x86_64 rpm system
job install name P
job install name X
result transaction,problems <inline>
#>install P-1-1.noarch@available
#>install V-1-1.noarch@available
#>install X-1-1.noarch@available
