# Of two erase jobs one cleans: what the other one's package alone needs stays.
repo system 0 testtags <inline>
#>=Pkg: A 1 1 noarch
#>=Pkg: B 1 1 noarch
#>=Req: A
#>=Pkg: X 1 1 noarch
#>=Pkg: Y 1 1 noarch
#>=Req: X
system x86_64 rpm system
job erase name B [cleandeps]
job erase name Y
result transaction,problems <inline>
#>erase A-1-1.noarch@system
#>erase B-1-1.noarch@system
#>erase Y-1-1.noarch@system
