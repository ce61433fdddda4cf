# A candidate that makes a conflict with & hold is passed over.
repo system 0 empty
repo available 0 testtags <inline>
#>=Pkg: C 1 1 noarch
#>=Con: A & B
#>=Pkg: A 1 1 noarch
#>=Pkg: X 1 1 noarch
#>=Req: lib
#>=Pkg: B 1 1 noarch
#>=Prv: lib
#>=Pkg: D 1 1 noarch
#>=Prv: lib
system x86_64 rpm system
job install name C
job install name A
job install name X
result transaction,problems <inline>
#>install A-1-1.noarch@available
#>install C-1-1.noarch@available
#>install D-1-1.noarch@available
#>install X-1-1.noarch@available
