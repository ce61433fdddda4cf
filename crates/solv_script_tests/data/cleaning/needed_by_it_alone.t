# What an erased package alone needs goes with it.
repo system 0 testtags <inline>
#>=Pkg: A 1 1 noarch
#>=Pkg: B 1 1 noarch
#>=Req: A
#>=Pkg: C 1 1 noarch
system x86_64 rpm system
job erase name B [cleandeps]
result transaction,problems <inline>
#>erase A-1-1.noarch@system
#>erase B-1-1.noarch@system
