# An installed package that is marked for a distribution upgrade does not come before a favoured one.
repo system 0 testtags <inline>
#>=Pkg: la 1 1 noarch
#>=Prv: lib
repo available 0 testtags <inline>
#>=Pkg: la 1 1 noarch
#>=Prv: lib
#>=Pkg: lb 1 1 noarch
#>=Prv: lib
system x86_64 rpm system
job favor name lb
job install provides lib
job distupgrade name la
result transaction,problems <inline>
#>install lb-1-1.noarch@available
