# A broken requirement of a verified package counts.
repo system 0 testtags <inline>
#>=Pkg: B 1 1 noarch
#>=Req: missing
repo available 0 testtags <inline>
#>=Pkg: C 1 1 noarch
system x86_64 rpm system
job install name C
job verify all packages
result transaction,problems <inline>
#>problem 1 info nothing provides missing needed by B-1-1.noarch@system
#>problem 1 info problem with installed package B-1-1.noarch@system
#>problem 1 solution 1 erase B-1-1.noarch@system
#>problem 2 info nothing provides missing needed by B-1-1.noarch@system
#>problem 2 info problem with installed package B-1-1.noarch@system
#>problem 2 solution 1 erase B-1-1.noarch@system
