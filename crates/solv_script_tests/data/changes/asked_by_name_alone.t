# A job that asks for a name without a version lets no lower version in: X conflicts with the installed one.
repo system 0 testtags <inline>
#>=Pkg: A 2 1 noarch
repo available 0 testtags <inline>
#>=Pkg: A 1 1 noarch
#>=Pkg: X 1 1 noarch
#>=Con: A = 2
#>=Pkg: Y 1 1 noarch
system x86_64 rpm system
job install name X
job install name A
result transaction,problems <inline>
#>problem 1 info conflicting requests
#>problem 1 info package X-1-1.noarch@available conflicts with A = 2 provided by A-2-1.noarch@system
#>problem 1 info problem with installed package A-2-1.noarch@system
#>problem 1 solution 1 replace A-2-1.noarch@system A-1-1.noarch@available
#>problem 1 solution 2 deljob install name X
