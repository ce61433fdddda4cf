# What the user asked for stays.
repo system 0 testtags <inline>
#>=Pkg: A 1 1 noarch
#>=Pkg: B 1 1 noarch
#>=Req: A
#>=Pkg: C 1 1 noarch
system x86_64 rpm system
job erase name B [cleandeps]
job userinstalled name A
result transaction,problems,userinstalled,unneeded <inline>
#>erase B-1-1.noarch@system
#>unneeded C-1-1.noarch@system
#>userinstalled A-1-1.noarch@system
