# A package needs what nothing provides.
repo system 0 empty
repo available 0 testtags <inline>
#>=Pkg: A 1 1 noarch
#>=Req: missing
system x86_64 rpm system
job install name A
result transaction,problems <inline>
#>problem 1 info conflicting requests
#>problem 1 info nothing provides missing needed by A-1-1.noarch@available
#>problem 1 solution 1 deljob install name A
