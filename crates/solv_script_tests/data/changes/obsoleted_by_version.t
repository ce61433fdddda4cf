# Packages are obsoleted by their name and version, and not by what they provide.
repo system 0 testtags <inline>
#>=Pkg: lib 1 1 noarch
#>=Pkg: lib 2 1 noarch
#>=Pkg: other 1 1 noarch
#>=Prv: lib = 2-1
repo available 0 testtags <inline>
#>=Pkg: new 1 1 noarch
#>=Obs: lib = 2-1
#>=Obs: new
system x86_64 rpm system
job install name new
result transaction,problems <inline>
#>install new-1-1.noarch@available
#>obsolete lib-2-1.noarch@system new-1-1.noarch@available
