# The best update cannot be installed.
repo system 0 testtags <inline>
#>=Pkg: A 1 1 noarch
repo available 0 testtags <inline>
#>=Pkg: A 2 1 noarch
#>=Req: missing
system x86_64 rpm system
job update name A [forcebest]
result transaction,problems <inline>
#>problem 1 info cannot install the best update candidate for package A-1-1.noarch@system
#>problem 1 info nothing provides missing needed by A-2-1.noarch@available
#>problem 1 solution 1 keepold A-1-1.noarch@system
