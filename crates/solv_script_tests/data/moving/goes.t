# The package can neither move nor stay, since B is asked for and conflicts with it.
repo system 0 testtags <inline>
#>=Pkg: A 2 1 noarch
repo available 0 testtags <inline>
#>=Pkg: A 1 1 noarch
#>=Req: missing
#>=Pkg: B 1 1 noarch
#>=Con: A
system x86_64 rpm system
job install name B
job distupgrade all packages
result transaction,problems <inline>
#>problem 1 info nothing provides missing needed by A-1-1.noarch@available
#>problem 1 info problem with installed package A-2-1.noarch@system
#>problem 1 solution 1 keep A-2-1.noarch@system
#>problem 2 info conflicting requests
#>problem 2 info nothing provides missing needed by A-1-1.noarch@available
#>problem 2 info package B-1-1.noarch@available conflicts with A provided by A-2-1.noarch@system
#>problem 2 info problem with installed package A-2-1.noarch@system
#>problem 2 solution 1 erase A-2-1.noarch@system
#>problem 2 solution 2 deljob install name B
