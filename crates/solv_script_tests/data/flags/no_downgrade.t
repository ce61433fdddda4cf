# Without the flag it may not.
repo system 0 testtags <inline>
#>=Pkg: d 2 1 noarch
repo available 0 testtags <inline>
#>=Pkg: d 1 1 noarch
#>=Pkg: X 1 1 noarch
#>=Con: d = 2-1
system x86_64 rpm system
job install name X
result transaction,problems <inline>
#>problem 1 info conflicting requests
#>problem 1 info package X-1-1.noarch@available conflicts with d = 2-1 provided by d-2-1.noarch@system
#>problem 1 info problem with installed package d-2-1.noarch@system
#>problem 1 solution 1 replace d-2-1.noarch@system d-1-1.noarch@available
#>problem 1 solution 2 deljob install name X
