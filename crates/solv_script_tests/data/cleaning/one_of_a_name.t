# Of two versions side by side the one goes that was needed.
repo system 0 testtags <inline>
#>=Pkg: K 1 1 noarch
#>=Pkg: K 2 1 noarch
#>=Pkg: M 1 1 noarch
#>=Req: K = 1
system x86_64 rpm system
job multiversion name K
job erase name M [cleandeps]
result transaction,problems <inline>
#>erase K-1-1.noarch@system
#>erase M-1-1.noarch@system
