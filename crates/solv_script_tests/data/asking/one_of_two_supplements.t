# One of its supplements holds, and the other does not.
repo system 0 empty
repo available 0 testtags <inline>
#>=Pkg: L 1 1 noarch
#>=Sup: x
#>=Sup: y
#>=Pkg: x 1 1 noarch
system x86_64 rpm system
job install name x
result transaction,problems <inline>
#>install L-1-1.noarch@available
#>install x-1-1.noarch@available
