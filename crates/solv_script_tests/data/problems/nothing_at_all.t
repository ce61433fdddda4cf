# One of all packages is asked for, and there is none.
repo system 0 empty
repo available 0 testtags <inline>
system x86_64 rpm system
job install all packages
result transaction,problems <inline>
#>problem 1 info conflicting requests
#>problem 1 solution 1 deljob install all packages
