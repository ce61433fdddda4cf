# A downgrade that is asked for.
repo system 0 testtags <inline>
#>=Pkg: A 2 1 noarch
repo available 0 testtags <inline>
#>=Pkg: A 1 1 noarch
system x86_64 rpm system
job install name A = 1
result transaction,problems <inline>
#>downgrade A-2-1.noarch@system A-1-1.noarch@available
