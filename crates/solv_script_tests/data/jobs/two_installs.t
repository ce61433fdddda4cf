# The newest of a name, asked for twice.
repo system 0 empty
repo available 0 testtags <inline>
#>=Pkg: N 1 1 noarch
#>=Pkg: N 2 1 noarch
#>=Pkg: M 1 1 noarch
system x86_64 rpm system
job install name N
job install name N
job update name N
result transaction,problems <inline>
#>install N-2-1.noarch@available
