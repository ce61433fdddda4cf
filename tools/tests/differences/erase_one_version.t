# An erase of one version may upgrade the package.
repo system 0 testtags <inline>
#>=Pkg: lib 1 1 noarch
#>=Pkg: app 1 1 noarch
#>=Req: lib
repo r 0 testtags <inline>
#>=Pkg: lib 2 1 noarch
system x86_64 rpm system
job erase pkg lib-1-1.noarch@system
result transaction,problems <inline>
#>upgrade lib-1-1.noarch@system lib-2-1.noarch@r
# libsolv: a problem
nextjob
job erase name lib < 2
result transaction,problems <inline>
#>upgrade lib-1-1.noarch@system lib-2-1.noarch@r
# libsolv: a problem
nextjob
job erase name lib
result transaction,problems <inline>
#>problem 1 info conflicting requests
#>problem 1 info package app-1-1.noarch@system requires lib, but none of the providers can be installed
#>problem 1 info problem with installed package app-1-1.noarch@system
#>problem 1 solution 1 erase app-1-1.noarch@system
#>problem 1 solution 2 deljob erase name lib
