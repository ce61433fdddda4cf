# A package that others do not need is erased.
repo system 0 testtags <inline>
#>=Pkg: A 1 1 noarch
#>=Pkg: B 1 1 noarch
#>=Req: A
#>=Pkg: C 1 1 noarch
repo available 0 testtags <inline>
system x86_64 rpm system
job erase name B
result transaction,problems <inline>
#>erase B-1-1.noarch@system
