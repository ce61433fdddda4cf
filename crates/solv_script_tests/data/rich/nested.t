# Operators within operators.
repo system 0 empty
repo available 0 testtags <inline>
#>=Pkg: P 1 1 noarch
#>=Req: a & (a | (a & (a | (a & (a | (a & (a | (a & (a | (a & (a | (a & (a | (a & (a | (a & (a | (a & (a | (a & (a | (a & (a | (a & (a | (a & (a | (a & (a | (a & (a | (a))))))))))))))))))))))))))))))))
#>=Pkg: a 1 1 noarch
system x86_64 rpm system
job install name P
result transaction,problems <inline>
#>install P-1-1.noarch@available
#>install a-1-1.noarch@available
