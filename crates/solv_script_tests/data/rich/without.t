# A package that meets what is excepted does not serve.
repo system 0 empty
repo available 0 testtags <inline>
#>=Pkg: P 1 1 noarch
#>=Req: lib - old
#>=Pkg: la 1 1 noarch
#>=Prv: lib
#>=Prv: old
#>=Pkg: lb 1 1 noarch
#>=Prv: lib
system x86_64 rpm system
job install name P
result transaction,problems <inline>
#>install P-1-1.noarch@available
#>install lb-1-1.noarch@available
