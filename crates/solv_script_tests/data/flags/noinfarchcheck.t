# Inferior architectures are not minded.
repo system 0 empty
repo available 0 testtags <inline>
#>=Pkg: A 1 1 i686
#>=Pkg: A 1 1 x86_64
system x86_64 rpm system
solverflags noinfarchcheck
job install pkg A-1-1.i686@available
result transaction,problems <inline>
#>install A-1-1.i686@available
