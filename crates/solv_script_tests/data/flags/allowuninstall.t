# An installed package may go that is in the way.
repo system 0 testtags <inline>
#>=Pkg: A 1 1 noarch
repo available 0 testtags <inline>
#>=Pkg: X 1 1 noarch
#>=Con: A
system x86_64 rpm system
solverflags allowuninstall
job install name X
result transaction,problems <inline>
#>erase A-1-1.noarch@system
#>install X-1-1.noarch@available
