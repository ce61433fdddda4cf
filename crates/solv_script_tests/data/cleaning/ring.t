# A ring that nobody else needs goes whole.
repo system 0 testtags <inline>
#>=Pkg: A 1 1 noarch
#>=Req: B
#>=Pkg: B 1 1 noarch
#>=Req: A
#>=Pkg: C 1 1 noarch
#>=Req: A
system x86_64 rpm system
job erase name C [cleandeps]
result transaction,problems <inline>
#>erase A-1-1.noarch@system
#>erase B-1-1.noarch@system
#>erase C-1-1.noarch@system
