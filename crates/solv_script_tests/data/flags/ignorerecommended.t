# Recommendations and supplements are not minded.
repo system 0 empty
repo available 0 testtags <inline>
#>=Pkg: P 1 1 noarch
#>=Rec: Q
#>=Pkg: Q 1 1 noarch
#>=Pkg: R 1 1 noarch
#>=Sup: P
system x86_64 rpm system
solverflags ignorerecommended
job install name P
result transaction,problems <inline>
#>install P-1-1.noarch@available
