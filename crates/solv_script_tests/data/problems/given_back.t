# A rule that is dropped on the way to a set is given back: Z stays.
repo system 0 empty
repo available 0 testtags <inline>
#>=Pkg: X 1 1 noarch
#>=Req: lib
#>=Pkg: la 1 1 noarch
#>=Prv: lib
#>=Con: Y | R | (Z & Z)
#>=Pkg: lb 1 1 noarch
#>=Prv: lib
#>=Con: Y | (R & R)
#>=Pkg: Y 1 1 noarch
#>=Pkg: R 1 1 noarch
#>=Pkg: Z 1 1 noarch
system x86_64 rpm system
job install name X
job install name Z
job install name R
job install name Y
result transaction,problems <inline>
#>problem 1 info conflicting requests
#>problem 1 info package X-1-1.noarch@available requires lib, but none of the providers can be installed
#>problem 1 info package la-1-1.noarch@available conflicts with Y | R | (Z & Z)
#>problem 1 info package lb-1-1.noarch@available conflicts with Y | (R & R)
#>problem 1 solution 1 deljob install name X
#>problem 1 solution 2 deljob install name R
#>problem 1 solution 2 deljob install name Y
