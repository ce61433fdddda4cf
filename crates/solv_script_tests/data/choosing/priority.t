# The greater priority comes first, and an installed package has that of the others.
repo system 9 testtags <inline>
#>=Pkg: A 1 1 noarch
repo first 1 testtags <inline>
#>=Pkg: A 3 1 noarch
repo second 2 testtags <inline>
#>=Pkg: A 2 1 noarch
system x86_64 rpm system
job update name A
result transaction,problems <inline>
#>upgrade A-1-1.noarch@system A-2-1.noarch@second
