# of the lines that are expected two are not told, and two are told that are not expected
repo system 0 empty
repo available 1 testtags <inline>
#>=Pkg: A 1 1 noarch
#>=Req: B
#>=Req: C
#>=Pkg: B 1 1 noarch
#>=Pkg: C 1 1 noarch
system x86_64 rpm system
job install name A
result transaction <inline>
#>install Z-1-1.noarch@available
#>install A-1-1.noarch@available
#>install B-2-1.noarch@available
