# A package needs one that is disabled.
repo system 0 empty
repo available 0 testtags <inline>
#>=Pkg: P 1 1 noarch
#>=Req: lib
#>=Pkg: lib 1 1 noarch
system x86_64 rpm system
disable pkg lib-1-1.noarch@available
job install name P
result transaction,problems <inline>
#>problem 1 info conflicting requests
#>problem 1 info package P-1-1.noarch@available requires lib, but none of the providers can be installed
#>problem 1 info package lib-1-1.noarch@available is not installable
#>problem 1 solution 1 deljob install name P
