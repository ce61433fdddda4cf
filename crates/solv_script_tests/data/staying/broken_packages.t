# What is broken among installed packages is left alone: a requirement, a conflict, an obsoletion, and two of one name.
repo system 0 testtags <inline>
#>=Pkg: a 1 1 noarch
#>=Req: gone
#>=Con: x
#>=Obs: b
#>=Pkg: b 1 1 noarch
#>=Prv: x
#>=Pkg: b 2 1 noarch
repo available 0 testtags <inline>
#>=Pkg: c 1 1 noarch
system x86_64 rpm system
job install name c
result transaction,problems <inline>
#>install c-1-1.noarch@available
