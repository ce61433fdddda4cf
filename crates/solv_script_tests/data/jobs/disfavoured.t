# A disfavoured candidate comes after the neutral ones.
repo system 0 empty
repo available 0 testtags <inline>
#>=Pkg: P 1 1 noarch
#>=Req: lib
#>=Pkg: la 1 1 noarch
#>=Prv: lib
#>=Pkg: lb 1 1 noarch
#>=Prv: lib
system x86_64 rpm system
job disfavor name la
job install name P
result transaction,problems <inline>
#>install P-1-1.noarch@available
#>install lb-1-1.noarch@available
