# A solution that gives up the update of e takes the greater of two lower versions in its place.
repo system 0 testtags <inline>
#>=Pkg: e 2 1 noarch
#>=Con: x
repo available 0 testtags <inline>
#>=Pkg: e 1 1 noarch
#>=Pkg: e 1 2 noarch
#>=Pkg: x 1 1 noarch
system x86_64 rpm system
job install name x
result transaction,problems <inline>
#>problem 1 info conflicting requests
#>problem 1 info package e-2-1.noarch@system conflicts with x provided by x-1-1.noarch@available
#>problem 1 info problem with installed package e-2-1.noarch@system
#>problem 1 solution 1 replace e-2-1.noarch@system e-1-2.noarch@available
#>problem 1 solution 2 deljob install name x
