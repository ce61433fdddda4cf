# Another package comes in place of an update, in both programs.
repo system 0 testtags <inline>
#>=Pkg: mail 1 1 noarch
repo updates 0 testtags <inline>
#>=Pkg: mail 2 1 noarch
#>=Pkg: post 1 1 noarch
#>=Obs: mail
system x86_64 rpm system
job update name mail
result transaction,problems <inline>
#>install post-1-1.noarch@updates
#>obsolete mail-1-1.noarch@system post-1-1.noarch@updates
# libsolv: erase mail-1-1.noarch@system post-1-1.noarch@updates
# libsolv: install post-1-1.noarch@updates
nextjob
solverflags !allownamechange
job update name mail
result transaction,problems <inline>
#>upgrade mail-1-1.noarch@system mail-2-1.noarch@updates
