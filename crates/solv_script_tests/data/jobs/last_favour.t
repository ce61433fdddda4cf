# Of jobs that favour and disfavour a package the last one decides.
repo system 0 empty
repo available 0 testtags <inline>
#>=Pkg: P 1 1 noarch
#>=Req: lib
#>=Pkg: la 1 1 noarch
#>=Prv: lib
#>=Pkg: lb 1 1 noarch
#>=Prv: lib
#>=Pkg: lc 1 1 noarch
#>=Prv: lib
system x86_64 rpm system
job favor name lc
job disfavor all packages
job favor name lb
job install name P
result transaction,problems <inline>
#>install P-1-1.noarch@available
#>install lb-1-1.noarch@available
