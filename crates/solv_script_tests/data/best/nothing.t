# Of an empty selection there is no best; the job itself is the problem.
repo system 0 empty
repo available 0 testtags <inline>
system x86_64 rpm system
job install name nosuch [forcebest]
result transaction,problems <inline>
#>problem 1 info nothing provides requested nosuch
#>problem 1 solution 1 deljob install name nosuch [forcebest]
