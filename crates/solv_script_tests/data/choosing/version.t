# The greater version comes first.
repo system 0 empty
repo available 0 testtags <inline>
#>=Pkg: A 9 1 noarch
#>=Pkg: A 10 1 noarch
system x86_64 rpm system
job install name A
result transaction,problems <inline>
#>install A-10-1.noarch@available
