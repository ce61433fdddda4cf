# What supplements an erased package goes with it, and what that requires. A supplement that does not hold is none.
repo system 0 testtags <inline>
#>=Pkg: A 1 1 noarch
#>=Pkg: L 1 1 noarch
#>=Sup: A
#>=Req: Z
#>=Pkg: N 1 1 noarch
#>=Sup: A & Q
#>=Pkg: Z 1 1 noarch
system x86_64 rpm system
job erase name A [cleandeps]
result transaction,problems,userinstalled,unneeded <inline>
#>erase A-1-1.noarch@system
#>erase L-1-1.noarch@system
#>erase Z-1-1.noarch@system
#>unneeded N-1-1.noarch@system
