# An installed package meets the condition.
repo system 0 testtags <inline>
#>=Pkg: Y 1 1 noarch
repo available 0 testtags <inline>
#>=Pkg: P 1 1 noarch
#>=Req: X <IF> Y
#>=Pkg: X 1 1 noarch
system x86_64 rpm system
job install name P
result transaction,problems <inline>
#>install P-1-1.noarch@available
#>install X-1-1.noarch@available
