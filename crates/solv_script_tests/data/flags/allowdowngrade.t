# An installed package may be replaced by an older one.
repo system 0 testtags <inline>
#>=Pkg: d 2 1 noarch
repo available 0 testtags <inline>
#>=Pkg: d 1 1 noarch
#>=Pkg: X 1 1 noarch
#>=Con: d = 2-1
system x86_64 rpm system
solverflags allowdowngrade
job install name X
result transaction,problems <inline>
#>downgrade d-2-1.noarch@system d-1-1.noarch@available
#>install X-1-1.noarch@available
