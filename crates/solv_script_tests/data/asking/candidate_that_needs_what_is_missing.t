# A candidate that cannot be installed is passed over.
repo system 0 empty
repo available 0 testtags <inline>
#>=Pkg: A 1 1 noarch
#>=Pkg: A 2 1 noarch
#>=Req: missing
system x86_64 rpm system
job install name A
result transaction,problems <inline>
#>install A-1-1.noarch@available
