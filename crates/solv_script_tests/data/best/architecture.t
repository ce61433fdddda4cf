# The better architecture is the best, whatever its version.
repo system 0 empty
repo available 0 testtags <inline>
#>=Pkg: B 1 1 x86_64
#>=Pkg: B 2 1 i686
system x86_64 rpm system
solverflags noinfarchcheck
job install name B [forcebest]
result transaction,problems <inline>
#>install B-1-1.x86_64@available
