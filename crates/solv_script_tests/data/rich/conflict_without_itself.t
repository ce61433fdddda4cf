# A package does not count in its own conflict.
repo system 0 empty
repo available 0 testtags <inline>
#>=Pkg: P 1 1 noarch
#>=Prv: x
#>=Con: x & y
#>=Pkg: y 1 1 noarch
system x86_64 rpm system
job install name P
job install name y
result transaction,problems <inline>
#>install P-1-1.noarch@available
#>install y-1-1.noarch@available
