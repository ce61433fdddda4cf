# The first job clashes with each of the others, which agree: one problem. To drop its second job is not enough, to drop its first is.
repo system 0 empty
repo available 0 testtags <inline>
#>=Pkg: A 1 1 noarch
#>=Con: B | (C & C)
#>=Pkg: B 1 1 noarch
#>=Pkg: C 1 1 noarch
system x86_64 rpm system
job install name A
job install name B
job install name C
result transaction,problems <inline>
#>problem 1 info conflicting requests
#>problem 1 info package A-1-1.noarch@available conflicts with B | (C & C)
#>problem 1 solution 1 deljob install name A
#>problem 1 solution 2 deljob install name B
#>problem 1 solution 2 deljob install name C
