# Two packages are asked for that conflict.
repo system 0 empty
repo available 0 testtags <inline>
#>=Pkg: P 1 1 noarch
#>=Con: x < 2
#>=Pkg: Q 1 1 noarch
#>=Prv: x = 1
system x86_64 rpm system
job install name P
job install name Q
result transaction,problems <inline>
#>problem 1 info conflicting requests
#>problem 1 info package P-1-1.noarch@available conflicts with x < 2 provided by Q-1-1.noarch@available
#>problem 1 solution 1 deljob install name P
#>problem 1 solution 2 deljob install name Q
