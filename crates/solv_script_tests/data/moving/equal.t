# The installed package has its equal there, so it stays, before its equal and the lower version.
repo system 0 testtags <inline>
#>=Pkg: A 2 1 noarch
#>=Pkg: B 1 1 noarch
repo available 0 testtags <inline>
#>=Pkg: A 1 1 noarch
#>=Pkg: A 2 1 noarch
system x86_64 rpm system
job distupgrade all packages
result transaction,problems <inline>
