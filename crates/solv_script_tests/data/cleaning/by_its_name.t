# What the user asked for is so by its name, and what an install job selects.
repo system 0 testtags <inline>
#>=Pkg: A 1 1 noarch
repo available 0 testtags <inline>
#>=Pkg: A 2 1 noarch
#>=Pkg: B 1 1 noarch
#>=Req: A
system x86_64 rpm system
job userinstalled name A
job update name A
job install name B
result transaction,problems,userinstalled,unneeded <inline>
#>install B-1-1.noarch@available
#>upgrade A-1-1.noarch@system A-2-1.noarch@available
#>userinstalled A-2-1.noarch@available
#>userinstalled B-1-1.noarch@available
