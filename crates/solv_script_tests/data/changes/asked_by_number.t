# A job that asks for one package exactly does: the update rule of A is missing.
repo system 0 testtags <inline>
#>=Pkg: A 2 1 noarch
repo available 0 testtags <inline>
#>=Pkg: A 1 1 noarch
#>=Pkg: X 1 1 noarch
#>=Con: A = 2
#>=Pkg: Y 1 1 noarch
system x86_64 rpm system
job install name X
job install oneof A-1-1.noarch@available
result transaction,problems <inline>
#>downgrade A-2-1.noarch@system A-1-1.noarch@available
#>install X-1-1.noarch@available
