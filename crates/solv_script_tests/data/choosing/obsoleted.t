# A candidate that another one obsoletes comes later; one of its own name does not count.
repo system 0 empty
repo available 0 testtags <inline>
#>=Pkg: A 1 1 noarch
#>=Prv: v
#>=Pkg: B 1 1 noarch
#>=Prv: v
#>=Obs: A
#>=Pkg: C 2 1 noarch
#>=Pkg: C 1 1 noarch
#>=Obs: C
system x86_64 rpm system
job install provides v
job install name C
result transaction,problems <inline>
#>install B-1-1.noarch@available
#>install C-2-1.noarch@available
