# The equal lets the package stay, although it cannot be had itself.
repo system 0 testtags <inline>
#>=Pkg: A 2 1 noarch
repo available 0 testtags <inline>
#>=Pkg: A 2 1 noarch
#>=Req: missing
#>=Pkg: A 1 1 noarch
system x86_64 rpm system
job distupgrade all packages
result transaction,problems <inline>
