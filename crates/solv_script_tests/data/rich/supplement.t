# A supplement with & asks when both are there.
repo system 0 empty
repo available 0 testtags <inline>
#>=Pkg: a 1 1 noarch
#>=Pkg: b 1 1 noarch
#>=Pkg: s 1 1 noarch
#>=Sup: a & b
#>=Pkg: t 1 1 noarch
#>=Sup: a & c
system x86_64 rpm system
job install name a
job install name b
result transaction,problems <inline>
#>install a-1-1.noarch@available
#>install b-1-1.noarch@available
#>install s-1-1.noarch@available
