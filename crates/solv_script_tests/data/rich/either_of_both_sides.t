# Of `(a & b) | c` the candidates of both sides are one list: c has the lowest number.
repo system 0 empty
repo available 0 testtags <inline>
#>=Pkg: P 1 1 noarch
#>=Req: (a & b) | c
#>=Pkg: c 1 1 noarch
#>=Pkg: a 1 1 noarch
#>=Pkg: b 1 1 noarch
system x86_64 rpm system
job install name P
result transaction,problems <inline>
#>install P-1-1.noarch@available
#>install c-1-1.noarch@available
