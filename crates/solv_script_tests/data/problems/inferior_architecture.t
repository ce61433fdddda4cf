# A package of an inferior architecture is asked for.
repo system 0 empty
repo available 0 testtags <inline>
#>=Pkg: A 1 1 i686
#>=Pkg: A 1 1 x86_64
system x86_64 rpm system
job install pkg A-1-1.i686@available
result transaction,problems <inline>
#>problem 1 info A-1-1.i686@available has inferior architecture
#>problem 1 info conflicting requests
#>problem 1 solution 1 allow A-1-1.i686@available
#>problem 1 solution 2 deljob install pkg A-1-1.i686@available
