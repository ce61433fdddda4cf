# The first candidate brings a condition in that cannot be: the second does not.
repo system 0 empty
repo available 0 testtags <inline>
#>=Pkg: P 1 1 noarch
#>=Req: lib
#>=Req: X <IF> c
#>=Pkg: la 1 1 noarch
#>=Prv: lib
#>=Req: c
#>=Pkg: lb 1 1 noarch
#>=Prv: lib
#>=Pkg: c 1 1 noarch
#>=Pkg: X 1 1 noarch
#>=Req: x
#>=Req: y
#>=Pkg: x 1 1 noarch
#>=Con: y
#>=Pkg: y 1 1 noarch
system x86_64 rpm system
job install name P
result transaction,problems <inline>
#>install P-1-1.noarch@available
#>install lb-1-1.noarch@available
