# A supplement of both needs both; a supplement of either stays with the other.
repo system 0 testtags <inline>
#>=Pkg: A 1 1 noarch
#>=Pkg: libc 1 1 noarch
#>=Pkg: L 1 1 noarch
#>=Sup: A & libc
#>=Pkg: M 1 1 noarch
#>=Sup: A | libc
system x86_64 rpm system
job erase name A [cleandeps]
result transaction,problems <inline>
#>erase A-1-1.noarch@system
#>erase L-1-1.noarch@system
