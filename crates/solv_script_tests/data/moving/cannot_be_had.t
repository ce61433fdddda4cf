# What the package moves to cannot be had: it may be kept.
repo system 0 testtags <inline>
#>=Pkg: A 2 1 noarch
#>=Pkg: B 1 1 noarch
repo available 0 testtags <inline>
#>=Pkg: A 1 1 noarch
#>=Req: missing
system x86_64 rpm system
job distupgrade all packages
result transaction,problems <inline>
#>problem 1 info nothing provides missing needed by A-1-1.noarch@available
#>problem 1 info problem with installed package A-2-1.noarch@system
#>problem 1 solution 1 keep A-2-1.noarch@system
