# two packages that require each other: a cycle, and the lower number first
repo system 0 empty
repo available 1 testtags <inline>
#>=Pkg: A 1 1 noarch
#>=Req: B
#>=Pkg: B 1 1 noarch
#>=Req: A
system x86_64 rpm system
job install name A
result order <inline>
#>order 0000001 install A-1-1.noarch@available
#>order 0000002 install B-1-1.noarch@available
#>cycle A-1-1.noarch@available B-1-1.noarch@available
