# A package supplements what comes, and of its name the newest is taken.
repo system 0 empty
repo available 0 testtags <inline>
#>=Pkg: P 1 1 noarch
#>=Pkg: s 1 1 noarch
#>=Sup: P
#>=Pkg: s 2 1 noarch
#>=Sup: P
system x86_64 rpm system
job install name P
result transaction,problems <inline>
#>install P-1-1.noarch@available
#>install s-2-1.noarch@available
