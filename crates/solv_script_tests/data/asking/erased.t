# Of an erased package nothing is asked: its newer version does not come.
repo system 0 testtags <inline>
#>=Pkg: A 1 1 noarch
repo available 0 testtags <inline>
#>=Pkg: A 2 1 noarch
system x86_64 rpm system
job erase pkg A-1-1.noarch@system
result transaction,problems <inline>
#>erase A-1-1.noarch@system
