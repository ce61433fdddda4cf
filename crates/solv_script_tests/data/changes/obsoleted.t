# A package that obsoletes an installed one is its update.
repo system 0 testtags <inline>
#>=Pkg: old 1 1 noarch
repo available 0 testtags <inline>
#>=Pkg: new 1 1 noarch
#>=Obs: old
system x86_64 rpm system
job update all packages
result transaction,problems <inline>
#>install new-1-1.noarch@available
#>obsolete old-1-1.noarch@system new-1-1.noarch@available
