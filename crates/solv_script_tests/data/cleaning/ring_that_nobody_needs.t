# Nobody needs a ring, though each of it is required.
repo system 0 testtags <inline>
#>=Pkg: A 1 1 noarch
#>=Req: B
#>=Pkg: B 1 1 noarch
#>=Req: A
#>=Pkg: C 1 1 noarch
system x86_64 rpm system
job userinstalled name C
result transaction,problems,userinstalled,unneeded <inline>
#>unneeded A-1-1.noarch@system
#>unneeded B-1-1.noarch@system
#>userinstalled C-1-1.noarch@system
