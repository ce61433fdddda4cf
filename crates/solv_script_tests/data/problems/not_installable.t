# A package of an architecture that the system does not take.
repo system 0 empty
repo available 0 testtags <inline>
#>=Pkg: A 1 1 aarch64
system x86_64 rpm system
job install name A
result transaction,problems <inline>
#>problem 1 info conflicting requests
#>problem 1 info package A-1-1.aarch64@available is not installable
#>problem 1 solution 1 deljob install name A
