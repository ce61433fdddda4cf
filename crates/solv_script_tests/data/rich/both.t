# Both operands of & are needed.
repo system 0 empty
repo available 0 testtags <inline>
#>=Pkg: P 1 1 noarch
#>=Req: a & b
#>=Pkg: a 1 1 noarch
#>=Pkg: b 1 1 noarch
system x86_64 rpm system
job install name P
result transaction,problems <inline>
#>install P-1-1.noarch@available
#>install a-1-1.noarch@available
#>install b-1-1.noarch@available
