# A library that is installed of two architectures is not updated.
repo system 0 testtags <inline>
#>=Pkg: lib 1 1 i686
#>=Pkg: lib 1 1 x86_64
repo updates 0 testtags <inline>
#>=Pkg: lib 2 1 i686
#>=Pkg: lib 2 1 x86_64
system x86_64 rpm system
job update all packages
result transaction,problems <inline>
nextjob
job distupgrade all packages
result transaction,problems <inline>
#>upgrade lib-1-1.i686@system lib-2-1.x86_64@updates
#>upgrade lib-1-1.x86_64@system lib-2-1.x86_64@updates
nextjob
job multiversion name lib
job update all packages
result transaction,problems <inline>
# libsolv: install lib-2-1.i686@updates
# libsolv: install lib-2-1.x86_64@updates
nextjob
job install pkg lib-2-1.i686@updates
job install pkg lib-2-1.x86_64@updates
result transaction,problems <inline>
#>problem 1 info conflicting requests
#>problem 1 info lib-2-1.i686@updates has inferior architecture
#>problem 1 solution 1 allow lib-2-1.i686@updates
#>problem 1 solution 1 deljob install pkg lib-2-1.x86_64@updates
#>problem 1 solution 2 deljob install pkg lib-2-1.i686@updates
nextjob
solverflags noinfarchcheck
job multiversion name lib
job install pkg lib-2-1.i686@updates
job install pkg lib-2-1.x86_64@updates
job erase name lib < 2
result transaction,problems <inline>
#>install lib-2-1.x86_64@updates
#>upgrade lib-1-1.i686@system lib-2-1.i686@updates
#>upgrade lib-1-1.x86_64@system lib-2-1.i686@updates
# libsolv: erase lib-1-1.i686@system
# libsolv: erase lib-1-1.x86_64@system
# libsolv: install lib-2-1.i686@updates
# libsolv: install lib-2-1.x86_64@updates
