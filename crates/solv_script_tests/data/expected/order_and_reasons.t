# what a package requires comes before it; two packages follow from the job, of the third one has to be chosen
repo system 0 empty
repo available 1 testtags <inline>
#>=Pkg: A 1 1 noarch
#>=Req: B
#>=Pkg: B 1 1 noarch
#>=Pkg: C 1 1 noarch
#>=Pkg: C 2 1 noarch
system x86_64 rpm system
job install name A
job install name C
result order,reason <inline>
#>order 0000001 install B-1-1.noarch@available
#>order 0000002 install A-1-1.noarch@available
#>order 0000003 install C-2-1.noarch@available
#>reason A-1-1.noarch@available follows
#>reason B-1-1.noarch@available follows
#>reason C-2-1.noarch@available job
