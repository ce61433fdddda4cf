# The best update is asked for by a rule of its own, which clashes with the distribution upgrade.
repo system 0 testtags <inline>
#>=Pkg: A 2 1 noarch
repo available 0 testtags <inline>
#>=Pkg: A 1 1 noarch
system x86_64 rpm system
job update name A [forcebest]
job distupgrade name A
result transaction,problems <inline>
#>problem 1 info cannot install both A-2-1.noarch@system and A-1-1.noarch@available
#>problem 1 info cannot install the best update candidate for package A-2-1.noarch@system
#>problem 1 info problem with installed package A-2-1.noarch@system
#>problem 1 solution 1 keep A-2-1.noarch@system
#>problem 1 solution 2 keepold A-2-1.noarch@system
