# The best candidate cannot be installed.
repo system 0 empty
repo available 0 testtags <inline>
#>=Pkg: A 1 1 noarch
#>=Pkg: A 2 1 noarch
#>=Req: missing
system x86_64 rpm system
job install name A [forcebest]
result transaction,problems <inline>
#>problem 1 info cannot install the best candidate for the job
#>problem 1 info nothing provides missing needed by A-2-1.noarch@available
#>problem 1 solution 1 dropbest install name A [forcebest]
