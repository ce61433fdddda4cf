# A locked package is asked for.
repo system 0 empty
repo available 0 testtags <inline>
#>=Pkg: A 1 1 noarch
system x86_64 rpm system
job lock name A
job install name A
result transaction,problems <inline>
#>problem 1 info conflicting requests
#>problem 1 solution 1 deljob lock name A
#>problem 1 solution 2 deljob install name A
