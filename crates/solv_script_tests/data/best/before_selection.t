# Where the best is asked for it is asked for first: a 2, and not the favoured a 1 with b 2 beside it.
repo system 0 empty
repo available 0 testtags <inline>
#>=Pkg: a 1 1 noarch
#>=Prv: v
#>=Pkg: a 2 1 noarch
#>=Prv: v
#>=Pkg: b 1 1 noarch
#>=Prv: v
#>=Pkg: b 2 1 noarch
#>=Prv: v
system x86_64 rpm system
job favor pkg a-1-1.noarch@available
job install provides v [forcebest]
result transaction,problems <inline>
#>install a-2-1.noarch@available
