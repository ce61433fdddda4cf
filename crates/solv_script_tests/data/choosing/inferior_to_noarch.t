# A package without an architecture makes none of its name inferior.
repo system 0 empty
repo available 0 testtags <inline>
#>=Pkg: A 1 1 i686
#>=Pkg: A 1 1 noarch
system x86_64 rpm system
job install pkg A-1-1.i686@available
result transaction,problems <inline>
#>install A-1-1.i686@available
