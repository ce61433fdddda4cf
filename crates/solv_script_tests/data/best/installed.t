# An installed package has the priority of the others: a newer one beats it.
repo system 9 testtags <inline>
#>=Pkg: A 1 1 noarch
repo other 1 testtags <inline>
#>=Pkg: A 3 1 noarch
system x86_64 rpm system
job update name A [forcebest]
result transaction,problems <inline>
#>upgrade A-1-1.noarch@system A-3-1.noarch@other
