# A locked package stands in the way of a distribution upgrade.
repo system 0 testtags <inline>
#>=Pkg: lib 1 1 x86_64
#>=Pkg: app 1 1 x86_64
repo next 0 testtags <inline>
#>=Pkg: lib 2 1 x86_64
#>=Pkg: app 2 1 x86_64
system x86_64 rpm system
job distupgrade all packages
job lock name lib
result transaction,problems <inline>
#>problem 1 info conflicting requests
#>problem 1 info problem with installed package lib-1-1.x86_64@system
#>problem 1 solution 1 keep lib-1-1.x86_64@system
#>problem 1 solution 2 deljob lock name lib
# libsolv: upgrade app-1-1.x86_64@system app-2-1.x86_64@next
nextjob
job update all packages
job lock name lib
result transaction,problems <inline>
#>upgrade app-1-1.x86_64@system app-2-1.x86_64@next
nextjob
job distupgrade name app
job lock name lib
result transaction,problems <inline>
#>upgrade app-1-1.x86_64@system app-2-1.x86_64@next
