# With the condition in, what it asks for is asked for, and not the `<ELSE>`.
repo system 0 empty
repo available 0 testtags <inline>
#>=Pkg: P 1 1 noarch
#>=Req: A <IF> B <ELSE> C
#>=Pkg: B 1 1 noarch
#>=Pkg: C 1 1 noarch
#>=Pkg: aa 1 1 noarch
#>=Prv: A
#>=Pkg: ab 1 1 noarch
#>=Prv: A
system x86_64 rpm system
job install name P
job install name B
result transaction,problems <inline>
#>install B-1-1.noarch@available
#>install P-1-1.noarch@available
#>install aa-1-1.noarch@available
