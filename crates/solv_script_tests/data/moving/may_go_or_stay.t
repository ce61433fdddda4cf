# The same where what it would move to cannot be had: it stays.
repo system 0 testtags <inline>
#>=Pkg: A 2 1 noarch
repo available 0 testtags <inline>
#>=Pkg: A 1 1 noarch
#>=Req: missing
system x86_64 rpm system
solverflags allowuninstall
job distupgrade all packages
result transaction,problems <inline>
