# A version is asked for exactly, so the rule of the distribution upgrade is missing, as that of an update would be.
repo system 0 testtags <inline>
#>=Pkg: A 2 1 noarch
repo available 0 testtags <inline>
#>=Pkg: A 1 1 noarch
#>=Pkg: A 3 1 noarch
#>=Pkg: A 4 1 noarch
system x86_64 rpm system
job install name A = 3
job distupgrade all packages
result transaction,problems <inline>
#>upgrade A-2-1.noarch@system A-3-1.noarch@available
