# An erase of what others require is a problem.
repo system 0 testtags <inline>
#>=Pkg: filesystem 3 1 noarch
#>=Pkg: bash 5 1 noarch
#>=Req: filesystem
#>=Pkg: tool 1 1 noarch
#>=Req: bash
system x86_64 rpm system
job erase name filesystem
result transaction,problems <inline>
#>problem 1 info conflicting requests
#>problem 1 info package bash-5-1.noarch@system requires filesystem, but none of the providers can be installed
#>problem 1 info problem with installed package bash-5-1.noarch@system
#>problem 1 solution 1 erase bash-5-1.noarch@system
#>problem 1 solution 1 erase tool-1-1.noarch@system
#>problem 1 solution 2 deljob erase name filesystem
nextjob
solverflags allowuninstall
job erase name filesystem
result transaction,problems <inline>
#>erase bash-5-1.noarch@system
#>erase filesystem-3-1.noarch@system
#>erase tool-1-1.noarch@system
nextjob
job erase name filesystem
job allowuninstall all packages
result transaction,problems <inline>
#>erase bash-5-1.noarch@system
#>erase filesystem-3-1.noarch@system
#>erase tool-1-1.noarch@system
