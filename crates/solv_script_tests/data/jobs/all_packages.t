# A job over all packages.
repo system 0 testtags <inline>
#>=Pkg: A 1 1 noarch
#>=Pkg: B 1 1 noarch
repo available 0 testtags <inline>
#>=Pkg: C 1 1 noarch
system x86_64 rpm system
job erase all packages
job noop
job noop name A
result transaction,problems <inline>
#>erase A-1-1.noarch@system
#>erase B-1-1.noarch@system
