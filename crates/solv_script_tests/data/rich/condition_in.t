# Where the condition holds its dependency is needed.
repo system 0 empty
repo available 0 testtags <inline>
#>=Pkg: P 1 1 noarch
#>=Req: X <IF> Y
#>=Pkg: X 1 1 noarch
#>=Pkg: Y 1 1 noarch
system x86_64 rpm system
job install name P
job install name Y
result transaction,problems <inline>
#>install P-1-1.noarch@available
#>install X-1-1.noarch@available
#>install Y-1-1.noarch@available
