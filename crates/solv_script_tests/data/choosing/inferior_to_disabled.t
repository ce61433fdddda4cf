# A package that is disabled makes none of its name inferior.
repo system 0 empty
repo available 0 testtags <inline>
#>=Pkg: A 1 1 i686
#>=Pkg: A 1 1 x86_64
system x86_64 rpm system
disable pkg A-1-1.x86_64@available
job install name A
result transaction,problems <inline>
#>install A-1-1.i686@available
