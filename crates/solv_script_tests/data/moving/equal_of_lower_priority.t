# The equal has a lower priority than another version, so the package may not stay.
repo system 0 testtags <inline>
#>=Pkg: A 2 1 noarch
repo below 5 testtags <inline>
#>=Pkg: A 2 1 noarch
repo above 7 testtags <inline>
#>=Pkg: A 1 1 noarch
system x86_64 rpm system
job distupgrade all packages
result transaction,problems <inline>
#>downgrade A-2-1.noarch@system A-1-1.noarch@above
