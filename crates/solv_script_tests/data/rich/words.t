# rpm's words for operators, and names that are such words.
repo system 0 empty
repo available 0 testtags <inline>
#>=Pkg: P 1 1 noarch
#>=Req: ((A and B) or C)
#>=Req: and and or
#>=Req: D if A else E
#>=Pkg: A 1 1 noarch
#>=Pkg: B 1 1 noarch
#>=Pkg: D 1 1 noarch
#>=Pkg: E 1 1 noarch
#>=Pkg: and 1 1 noarch
#>=Pkg: or 1 1 noarch
system x86_64 rpm system
job install name P
result transaction,problems <inline>
#>install A-1-1.noarch@available
#>install B-1-1.noarch@available
#>install D-1-1.noarch@available
#>install P-1-1.noarch@available
#>install and-1-1.noarch@available
#>install or-1-1.noarch@available
