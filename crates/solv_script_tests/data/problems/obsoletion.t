# Two packages are asked for, and one obsoletes the other.
repo system 0 empty
repo available 0 testtags <inline>
#>=Pkg: P 1 1 noarch
#>=Obs: Q <= 1
#>=Pkg: Q 1 1 noarch
system x86_64 rpm system
job install name P
job install name Q
result transaction,problems <inline>
#>problem 1 info conflicting requests
#>problem 1 info package P-1-1.noarch@available obsoletes Q <= 1 provided by Q-1-1.noarch@available
#>problem 1 solution 1 deljob install name P
#>problem 1 solution 2 deljob install name Q
