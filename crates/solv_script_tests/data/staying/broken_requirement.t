# A broken requirement of an installed package does not count.
repo system 0 testtags <inline>
#>=Pkg: B 1 1 noarch
#>=Req: missing
repo available 0 testtags <inline>
#>=Pkg: C 1 1 noarch
system x86_64 rpm system
job install name C
result transaction,problems <inline>
#>install C-1-1.noarch@available
