# A lock and a distribution upgrade of one package.
repo system 0 testtags <inline>
#>=Pkg: A 2 1 noarch
repo available 0 testtags <inline>
#>=Pkg: A 1 1 noarch
system x86_64 rpm system
job lock name A
job distupgrade all packages
result transaction,problems <inline>
#>problem 1 info conflicting requests
#>problem 1 info problem with installed package A-2-1.noarch@system
#>problem 1 solution 1 keep A-2-1.noarch@system
#>problem 1 solution 2 deljob lock name A
