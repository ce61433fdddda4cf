# A distribution upgrade goes back too. What the repositories do not have stays.
repo system 0 testtags <inline>
#>=Pkg: A 2 1 noarch
#>=Pkg: B 1 1 noarch
repo available 0 testtags <inline>
#>=Pkg: A 1 1 noarch
system x86_64 rpm system
job distupgrade all packages
result transaction,problems <inline>
#>downgrade A-2-1.noarch@system A-1-1.noarch@available
