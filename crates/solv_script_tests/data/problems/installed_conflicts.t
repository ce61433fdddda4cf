# An installed package conflicts with what is asked for.
repo system 0 testtags <inline>
#>=Pkg: a 1 1 noarch
#>=Con: x
repo available 0 testtags <inline>
#>=Pkg: c 1 1 noarch
#>=Prv: x
system x86_64 rpm system
job install name c
result transaction,problems <inline>
#>problem 1 info conflicting requests
#>problem 1 info package a-1-1.noarch@system conflicts with x provided by c-1-1.noarch@available
#>problem 1 info problem with installed package a-1-1.noarch@system
#>problem 1 solution 1 erase a-1-1.noarch@system
#>problem 1 solution 2 deljob install name c
