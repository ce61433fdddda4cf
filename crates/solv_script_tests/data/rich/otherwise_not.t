# Where the condition holds, what stands behind <ELSE> is not needed.
repo system 0 empty
repo available 0 testtags <inline>
#>=Pkg: P 1 1 noarch
#>=Req: a <IF> c <ELSE> b
#>=Pkg: a 1 1 noarch
#>=Pkg: b 1 1 noarch
#>=Pkg: c 1 1 noarch
system x86_64 rpm system
job install name P
job install name c
result transaction,problems <inline>
#>install P-1-1.noarch@available
#>install a-1-1.noarch@available
#>install c-1-1.noarch@available
