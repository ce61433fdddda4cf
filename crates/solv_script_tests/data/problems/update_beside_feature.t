# An installed package may not stay; that another one of its name comes in its place clashes with a job. Two problems.
repo system 0 testtags <inline>
#>=Pkg: B 2 1 noarch
#>=Req: missing
repo available 0 testtags <inline>
#>=Pkg: B 1 1 noarch
#>=Pkg: X 1 1 noarch
#>=Con: B = 1
system x86_64 rpm system
job verify all packages
job install name X
result transaction,problems <inline>
#>problem 1 info nothing provides missing needed by B-2-1.noarch@system
#>problem 1 info problem with installed package B-2-1.noarch@system
#>problem 1 solution 1 erase B-2-1.noarch@system
#>problem 2 info conflicting requests
#>problem 2 info nothing provides missing needed by B-2-1.noarch@system
#>problem 2 info package X-1-1.noarch@available conflicts with B = 1 provided by B-1-1.noarch@available
#>problem 2 info problem with installed package B-2-1.noarch@system
#>problem 2 solution 1 erase B-2-1.noarch@system
#>problem 2 solution 2 deljob install name X
