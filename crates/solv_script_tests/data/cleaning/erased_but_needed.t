# What a package that stays requires cannot go.
repo system 0 testtags <inline>
#>=Pkg: A 1 1 noarch
#>=Pkg: B 1 1 noarch
#>=Req: A
#>=Pkg: C 1 1 noarch
#>=Req: B
system x86_64 rpm system
job erase name B [cleandeps]
result transaction,problems <inline>
#>problem 1 info conflicting requests
#>problem 1 info package C-1-1.noarch@system requires B, but none of the providers can be installed
#>problem 1 info problem with installed package C-1-1.noarch@system
#>problem 1 solution 1 erase C-1-1.noarch@system
#>problem 1 solution 2 deljob erase name B [cleandeps]
