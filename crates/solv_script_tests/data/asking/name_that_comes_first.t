# Of candidates of several names the name that comes first is taken, whatever the version of another, and of it the newest.
repo system 0 empty
repo available 0 testtags <inline>
#>=Pkg: A 1 1 noarch
#>=Req: lib
#>=Pkg: lib 1 1 noarch
#>=Pkg: lib 2 1 noarch
#>=Pkg: other 9 1 noarch
#>=Prv: lib
system x86_64 rpm system
job install name A
result transaction,problems <inline>
#>install A-1-1.noarch@available
#>install lib-2-1.noarch@available
