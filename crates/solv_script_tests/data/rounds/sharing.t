# Flags and marks change from round to round and back: each round is decided by its own.
repo system 0 testtags <inline>
#>=Pkg: P 1 1 noarch
#>=Req: W
repo available 0 testtags <inline>
#>=Pkg: W 1 1 noarch
#>=Pkg: Q 1 1 noarch
#>=Pkg: Q 2 1 noarch
#>=Pkg: R 1 1 i686
#>=Pkg: R 1 1 x86_64
system x86_64 rpm system
job install name Q
result transaction,problems <inline>
#>install Q-2-1.noarch@available
nextjob
job verify name P
job install name Q
result transaction,problems <inline>
#>install Q-2-1.noarch@available
#>install W-1-1.noarch@available
nextjob
job install name Q
result transaction,problems <inline>
#>install Q-2-1.noarch@available
nextjob
job multiversion name Q
job install pkg Q-1-1.noarch@available
job install pkg Q-2-1.noarch@available
result transaction,problems <inline>
#>install Q-1-1.noarch@available
#>install Q-2-1.noarch@available
nextjob
job favor pkg Q-1-1.noarch@available
job install name Q
result transaction,problems <inline>
#>install Q-1-1.noarch@available
nextjob
job install name Q
result transaction,problems <inline>
#>install Q-2-1.noarch@available
nextjob
solverflags noinfarchcheck
job install pkg R-1-1.i686@available
result transaction,problems <inline>
#>install R-1-1.i686@available
nextjob
job erase name P
job install name Q
result transaction,problems <inline>
#>erase P-1-1.noarch@system
#>install Q-2-1.noarch@available
nextjob
solverflags !noinfarchcheck
job install name Q
result transaction,problems <inline>
#>install Q-2-1.noarch@available
