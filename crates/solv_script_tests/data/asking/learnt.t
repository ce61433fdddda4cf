# A candidate whose requirements conflict is given up for the next.
repo system 0 empty
repo available 0 testtags <inline>
#>=Pkg: P 1 1 noarch
#>=Req: lib
#>=Pkg: la 1 1 noarch
#>=Prv: lib
#>=Req: x
#>=Req: y
#>=Pkg: lb 1 1 noarch
#>=Prv: lib
#>=Pkg: x 1 1 noarch
#>=Con: y
#>=Pkg: y 1 1 noarch
system x86_64 rpm system
job install name P
result transaction,problems <inline>
#>install P-1-1.noarch@available
#>install lb-1-1.noarch@available
