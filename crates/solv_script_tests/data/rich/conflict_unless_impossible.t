# Nothing provides what would excuse the conflict; it is told by its sign.
repo system 0 empty
repo available 0 testtags <inline>
#>=Pkg: P 1 1 noarch
#>=Con: X unless Y
#>=Pkg: X 1 1 noarch
system x86_64 rpm system
job install name P
job install name X
result transaction,problems <inline>
#>problem 1 info conflicting requests
#>problem 1 info package P-1-1.noarch@available conflicts with X <UNLESS> Y
#>problem 1 solution 1 deljob install name P
#>problem 1 solution 2 deljob install name X
