# The flags do not matter: another name, a lower version, another architecture, another vendor.
repo system 0 testtags <inline>
#>=Pkg: old 1 1 noarch
#>=Pkg: down 2 1 noarch
#>=Pkg: arch 1 1 i686
#>=Pkg: vendor 1 1 noarch
#>=Vnd: V
repo available 0 testtags <inline>
#>=Pkg: new 1 1 noarch
#>=Obs: old
#>=Pkg: down 1 1 noarch
#>=Pkg: arch 1 1 x86_64
#>=Pkg: vendor 2 1 noarch
system x86_64 rpm system
solverflags !allownamechange
job distupgrade all packages
result transaction,problems <inline>
#>change arch-1-1.i686@system arch-1-1.x86_64@available
#>downgrade down-2-1.noarch@system down-1-1.noarch@available
#>install new-1-1.noarch@available
#>obsolete old-1-1.noarch@system new-1-1.noarch@available
#>upgrade vendor-1-1.noarch@system vendor-2-1.noarch@available
