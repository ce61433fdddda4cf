# A package does not excuse its own conflict: of P and ya, which both provide Y, ya is taken, though P is in.
repo system 0 empty
repo available 0 testtags <inline>
#>=Pkg: P 1 1 noarch
#>=Prv: Y
#>=Con: X unless Y
#>=Pkg: X 1 1 noarch
#>=Pkg: ya 1 1 noarch
#>=Prv: Y
#>=Pkg: yb 1 1 noarch
#>=Prv: Y
system x86_64 rpm system
job install name P
job install name X
result transaction,reason <inline>
#>install P-1-1.noarch@available
#>install X-1-1.noarch@available
#>install ya-1-1.noarch@available
#>reason P-1-1.noarch@available follows
#>reason X-1-1.noarch@available follows
#>reason ya-1-1.noarch@available conflicts
