# A conflict with | keeps each of them out.
repo system 0 empty
repo available 0 testtags <inline>
#>=Pkg: C 1 1 noarch
#>=Con: A | B
#>=Pkg: X 1 1 noarch
#>=Req: A | D
#>=Pkg: A 1 1 noarch
#>=Pkg: B 1 1 noarch
#>=Pkg: D 1 1 noarch
system x86_64 rpm system
job install name C
job install name X
result transaction,problems <inline>
#>install C-1-1.noarch@available
#>install D-1-1.noarch@available
#>install X-1-1.noarch@available
