# What an installed package recommends is not asked for.
repo system 0 testtags <inline>
#>=Pkg: Q 1 1 noarch
#>=Rec: a | b
repo available 0 testtags <inline>
#>=Pkg: P 1 1 noarch
#>=Pkg: a 1 1 noarch
#>=Pkg: b 1 1 noarch
system x86_64 rpm system
job install name P
result transaction,problems <inline>
#>install P-1-1.noarch@available
