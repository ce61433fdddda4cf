# With the `<ELSE>` ruled out the condition is asked for, and then what it asks for.
repo system 0 empty
repo available 0 testtags <inline>
#>=Pkg: P 1 1 noarch
#>=Req: A <IF> B <ELSE> C
#>=Con: C
#>=Pkg: A 1 1 noarch
#>=Pkg: C 1 1 noarch
#>=Pkg: ba 1 1 noarch
#>=Prv: B
#>=Pkg: bb 1 1 noarch
#>=Prv: B
system x86_64 rpm system
job install name P
result transaction,problems <inline>
#>install A-1-1.noarch@available
#>install P-1-1.noarch@available
#>install ba-1-1.noarch@available
