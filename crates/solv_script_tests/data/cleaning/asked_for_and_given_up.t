# What the user asked for and erases is no root.
repo system 0 testtags <inline>
#>=Pkg: A 1 1 noarch
#>=Pkg: B 1 1 noarch
#>=Req: A
#>=Pkg: C 1 1 noarch
system x86_64 rpm system
job userinstalled name B
job erase name B [cleandeps]
result transaction,problems,userinstalled,unneeded <inline>
#>erase A-1-1.noarch@system
#>erase B-1-1.noarch@system
#>unneeded C-1-1.noarch@system
