# A name that nothing provides is asked for.
repo system 0 empty
repo available 0 testtags <inline>
system x86_64 rpm system
job install name nosuch
result transaction,problems <inline>
#>problem 1 info nothing provides requested nosuch
#>problem 1 solution 1 deljob install name nosuch
