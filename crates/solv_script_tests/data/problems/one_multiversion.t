# Of two packages of one name only one may stand beside others.
repo system 0 empty
repo available 0 testtags <inline>
#>=Pkg: A 1 1 noarch
#>=Pkg: A 2 1 noarch
system x86_64 rpm system
job multiversion name A = 1
job install name A = 1
job install name A = 2
result transaction,problems <inline>
#>problem 1 info cannot install both A-1-1.noarch@available and A-2-1.noarch@available
#>problem 1 info conflicting requests
#>problem 1 solution 1 deljob install name A = 1
#>problem 1 solution 2 deljob install name A = 2
