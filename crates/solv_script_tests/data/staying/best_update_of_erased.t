# An erased package with a best update.
repo system 0 testtags <inline>
#>=Pkg: A 1 1 noarch
repo available 0 testtags <inline>
#>=Pkg: A 2 1 noarch
#>=Pkg: A 2 1 noarch
system x86_64 rpm system
job update name A [forcebest]
job erase pkg A-1-1.noarch@system
result transaction,problems <inline>
#>upgrade A-1-1.noarch@system A-2-1.noarch@available
