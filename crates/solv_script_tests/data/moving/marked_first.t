# Packages that are marked are asked for before the others: b 2 is taken before a 1, with which it conflicts.
repo system 0 testtags <inline>
#>=Pkg: a 1 1 noarch
#>=Pkg: b 1 1 noarch
repo available 0 testtags <inline>
#>=Pkg: a 2 1 noarch
#>=Pkg: b 1 1 noarch
#>=Pkg: b 2 1 noarch
#>=Con: a = 1
system x86_64 rpm system
job distupgrade name b
result transaction,problems <inline>
#>upgrade a-1-1.noarch@system a-2-1.noarch@available
#>upgrade b-1-1.noarch@system b-2-1.noarch@available
