# A conflict with & asks that not both are there.
repo system 0 empty
repo available 0 testtags <inline>
#>=Pkg: A 1 1 noarch
#>=Pkg: B 1 1 noarch
#>=Pkg: C 1 1 noarch
#>=Con: A & B
system x86_64 rpm system
job install name A
job install name B
job install name C
result transaction,problems <inline>
#>problem 1 info conflicting requests
#>problem 1 info package C-1-1.noarch@available conflicts with A & B
#>problem 1 solution 1 deljob install name A
#>problem 1 solution 2 deljob install name B
#>problem 1 solution 3 deljob install name C
