# A lock keeps what is installed, and keeps out what is not.
repo system 0 testtags <inline>
#>=Pkg: A 1 1 noarch
repo available 0 testtags <inline>
#>=Pkg: A 2 1 noarch
#>=Pkg: P 1 1 noarch
#>=Rec: Q
#>=Pkg: Q 1 1 noarch
system x86_64 rpm system
job lock name A
job lock name Q
job update all packages
job install name P
result transaction,problems <inline>
#>install P-1-1.noarch@available
