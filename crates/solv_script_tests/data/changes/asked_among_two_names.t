# A job for packages of two names asks exactly for neither.
repo system 0 testtags <inline>
#>=Pkg: A 2 1 noarch
repo available 0 testtags <inline>
#>=Pkg: A 1 1 noarch
#>=Pkg: X 1 1 noarch
#>=Con: A = 2
#>=Pkg: Y 1 1 noarch
system x86_64 rpm system
job install name X
job install oneof A-1-1.noarch@available Y-1-1.noarch@available
result transaction,problems <inline>
#>problem 1 info conflicting requests
#>problem 1 info package X-1-1.noarch@available conflicts with A = 2 provided by A-2-1.noarch@system
#>problem 1 info problem with installed package A-2-1.noarch@system
#>problem 1 solution 1 replace A-2-1.noarch@system A-1-1.noarch@available
#>problem 1 solution 2 deljob install name X
