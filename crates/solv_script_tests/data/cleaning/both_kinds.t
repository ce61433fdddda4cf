# What the user asked for, and what nobody needs.
repo system 0 testtags <inline>
#>=Pkg: A 1 1 noarch
#>=Pkg: B 1 1 noarch
#>=Req: A
#>=Pkg: C 1 1 noarch
system x86_64 rpm system
job userinstalled name B
result unneeded,userinstalled <inline>
#>unneeded C-1-1.noarch@system
#>userinstalled B-1-1.noarch@system
