# An update brings none of several versions that may stand side by side.
repo system 0 testtags <inline>
#>=Pkg: kernel 5.1 1 x86_64
#>=Pkg: kernel 5.2 1 x86_64
repo updates 0 testtags <inline>
#>=Pkg: kernel 5.3 1 x86_64
system x86_64 rpm system
job multiversion name kernel
job update name kernel
result transaction,problems <inline>
# libsolv: install kernel-5.3-1.x86_64@updates
nextjob
job multiversion name kernel
job update all packages
result transaction,problems <inline>
# libsolv: install kernel-5.3-1.x86_64@updates
nextjob
job multiversion name kernel
job distupgrade all packages
result transaction,problems <inline>
# libsolv: install kernel-5.3-1.x86_64@updates
nextjob
job multiversion name kernel
job update name kernel [forcebest]
result transaction,problems <inline>
# libsolv: install kernel-5.3-1.x86_64@updates
nextjob
job multiversion name kernel
job install name kernel
result transaction,problems <inline>
nextjob
job multiversion name kernel
job install name kernel [forcebest]
result transaction,problems <inline>
#>install kernel-5.3-1.x86_64@updates
nextjob
job multiversion name kernel
job install name kernel > 5.2-1
result transaction,problems <inline>
#>install kernel-5.3-1.x86_64@updates
