# Where two versions of a name are installed, an update cleans up.
repo system 0 testtags <inline>
#>=Pkg: jay 5 0 x86_64
#>=Pkg: jay 6 0 x86_64
repo main 0 testtags <inline>
#>=Pkg: jay 6 0 x86_64
#>=Pkg: other 1 0 x86_64
system x86_64 rpm system
job update all packages
result transaction,problems <inline>
#>reinstall jay-6-0.x86_64@system jay-6-0.x86_64@main
#>upgrade jay-5-0.x86_64@system jay-6-0.x86_64@main
# libsolv: nothing
nextjob
job install name other
result transaction,problems <inline>
#>install other-1-0.x86_64@main
nextjob
job update all packages
job lock name jay
result transaction,problems <inline>
nextjob
job erase name jay < 6
result transaction,problems <inline>
#>erase jay-5-0.x86_64@system
