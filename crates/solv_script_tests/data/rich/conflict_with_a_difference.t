# What is excepted is no conflict.
repo system 0 empty
repo available 0 testtags <inline>
#>=Pkg: C 1 1 noarch
#>=Con: lib - old
#>=Pkg: X 1 1 noarch
#>=Req: lib
#>=Pkg: lb 1 1 noarch
#>=Prv: lib
#>=Pkg: la 1 1 noarch
#>=Prv: lib
#>=Prv: old
system x86_64 rpm system
job install name C
job install name X
result transaction,problems <inline>
#>install C-1-1.noarch@available
#>install X-1-1.noarch@available
#>install la-1-1.noarch@available
