# What the package moves to cannot be had, nor can it stay itself: each of its rules is a problem of its own, and it goes.
repo system 0 testtags <inline>
#>=Pkg: A 2 1 noarch
#>=Req: missing
repo available 0 testtags <inline>
#>=Pkg: A 1 1 noarch
#>=Req: missing
system x86_64 rpm system
job verify all packages
job distupgrade all packages
result transaction,problems <inline>
#>problem 1 info nothing provides missing needed by A-1-1.noarch@available
#>problem 1 info problem with installed package A-2-1.noarch@system
#>problem 1 solution 1 erase A-2-1.noarch@system
#>problem 2 info nothing provides missing needed by A-1-1.noarch@available
#>problem 2 info nothing provides missing needed by A-2-1.noarch@system
#>problem 2 info problem with installed package A-2-1.noarch@system
#>problem 2 solution 1 erase A-2-1.noarch@system
