# The system has what the condition asks for.
repo system 0 empty
repo available 0 testtags <inline>
#>=Pkg: P 1 1 noarch
#>=Req: X <IF> rpmlib(Something)
#>=Pkg: X 1 1 noarch
system x86_64 rpm system
job install name P
result transaction,problems <inline>
#>install P-1-1.noarch@available
#>install X-1-1.noarch@available
