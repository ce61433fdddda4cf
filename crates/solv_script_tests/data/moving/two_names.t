# Two packages obsolete the installed one; one of them has its place.
repo system 0 testtags <inline>
#>=Pkg: old 1 1 noarch
repo available 0 testtags <inline>
#>=Pkg: one 1 1 noarch
#>=Obs: old
#>=Pkg: two 1 1 noarch
#>=Obs: old
system x86_64 rpm system
job distupgrade all packages
result transaction,problems <inline>
#>install one-1-1.noarch@available
#>obsolete old-1-1.noarch@system one-1-1.noarch@available
