# An erased package is needed by an installed one.
repo system 0 testtags <inline>
#>=Pkg: A 1 1 noarch
#>=Pkg: B 1 1 noarch
#>=Req: A
repo available 0 testtags <inline>
system x86_64 rpm system
job erase name A
result transaction,problems <inline>
#>problem 1 info conflicting requests
#>problem 1 info package B-1-1.noarch@system requires A, but none of the providers can be installed
#>problem 1 info problem with installed package B-1-1.noarch@system
#>problem 1 solution 1 erase B-1-1.noarch@system
#>problem 1 solution 2 deljob erase name A
