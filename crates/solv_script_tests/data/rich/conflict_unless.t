# A conflict unless something else is in: of two that provide it the first is taken.
repo system 0 empty
repo available 0 testtags <inline>
#>=Pkg: P 1 1 noarch
#>=Con: X unless Y
#>=Pkg: X 1 1 noarch
#>=Pkg: ya 1 1 noarch
#>=Prv: Y
#>=Pkg: yb 1 1 noarch
#>=Prv: Y
system x86_64 rpm system
job install name P
job install name X
result transaction,problems <inline>
#>install P-1-1.noarch@available
#>install X-1-1.noarch@available
#>install ya-1-1.noarch@available
