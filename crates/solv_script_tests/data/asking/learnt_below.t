# Two candidates need what cannot be had, so the third is taken.
repo system 0 empty
repo available 0 testtags <inline>
#>=Pkg: P 1 1 noarch
#>=Req: lib
#>=Pkg: la 1 1 noarch
#>=Prv: lib
#>=Req: m
#>=Pkg: lb 1 1 noarch
#>=Prv: lib
#>=Req: m
#>=Pkg: lc 1 1 noarch
#>=Prv: lib
#>=Pkg: m 1 1 noarch
#>=Req: x
#>=Req: y
#>=Pkg: x 1 1 noarch
#>=Con: y
#>=Pkg: y 1 1 noarch
system x86_64 rpm system
job install name P
result transaction,problems <inline>
#>install P-1-1.noarch@available
#>install lc-1-1.noarch@available
