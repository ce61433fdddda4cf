# Of the same package in two repositories the first is taken.
repo first 0 testtags <inline>
#>=Pkg: A 1 1 noarch
repo second 0 testtags <inline>
#>=Pkg: A 1 1 noarch
system x86_64 rpm
job install name A
result transaction,problems <inline>
#>install A-1-1.noarch@first
