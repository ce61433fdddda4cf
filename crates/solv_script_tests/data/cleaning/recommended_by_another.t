# What a package that stays recommends is needed.
repo system 0 testtags <inline>
#>=Pkg: A 1 1 noarch
#>=Pkg: B 1 1 noarch
#>=Req: A
#>=Pkg: E 1 1 noarch
#>=Rec: A
system x86_64 rpm system
job erase name B [cleandeps]
result transaction,problems,userinstalled,unneeded <inline>
#>erase B-1-1.noarch@system
#>unneeded A-1-1.noarch@system
#>unneeded E-1-1.noarch@system
