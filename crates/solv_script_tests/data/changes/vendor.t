# The same version of another vendor is a change and no reinstallation.
repo system 0 testtags <inline>
#>=Pkg: A 1 1 noarch
#>=Vnd: one
repo available 0 testtags <inline>
#>=Pkg: A 1 1 noarch
#>=Vnd: two
system x86_64 rpm system
job install pkg A-1-1.noarch@available
result transaction,problems <inline>
#>change A-1-1.noarch@system A-1-1.noarch@available
