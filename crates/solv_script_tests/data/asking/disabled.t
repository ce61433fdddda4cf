# A disabled candidate is passed over.
repo system 0 empty
repo available 0 testtags <inline>
#>=Pkg: A 1 1 noarch
#>=Req: lib
#>=Pkg: lib 1 1 noarch
#>=Pkg: lib 2 1 noarch
system x86_64 rpm system
disable pkg lib-2-1.noarch@available
job install name A
result transaction,problems <inline>
#>install A-1-1.noarch@available
#>install lib-1-1.noarch@available
