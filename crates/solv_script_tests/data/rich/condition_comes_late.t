# A recommended package brings the condition in, when all else is settled.
repo system 0 empty
repo available 0 testtags <inline>
#>=Pkg: P 1 1 noarch
#>=Req: X <IF> Y
#>=Rec: Z
#>=Pkg: X 1 1 noarch
#>=Pkg: Y 1 1 noarch
#>=Pkg: Z 1 1 noarch
#>=Req: Y
system x86_64 rpm system
job install name P
result transaction,problems <inline>
#>install P-1-1.noarch@available
#>install X-1-1.noarch@available
#>install Y-1-1.noarch@available
#>install Z-1-1.noarch@available
