# A alone is marked; B stays where it is.
repo system 0 testtags <inline>
#>=Pkg: A 2 1 noarch
#>=Pkg: B 2 1 noarch
repo available 0 testtags <inline>
#>=Pkg: A 1 1 noarch
#>=Pkg: B 1 1 noarch
#>=Pkg: B 3 1 noarch
system x86_64 rpm system
job distupgrade name A
result transaction,problems <inline>
#>downgrade A-2-1.noarch@system A-1-1.noarch@available
