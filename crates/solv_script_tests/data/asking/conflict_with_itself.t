# A package that conflicts with what it provides itself.
repo system 0 empty
repo available 0 testtags <inline>
#>=Pkg: P 1 1 noarch
#>=Prv: x
#>=Con: x
system x86_64 rpm system
job install name P
result transaction,problems <inline>
#>install P-1-1.noarch@available
