# Packages that may be installed side by side take no place of each other.
repo system 0 testtags <inline>
#>=Pkg: kernel 2 1 noarch
#>=Pkg: kernel 4 1 noarch
repo available 0 testtags <inline>
#>=Pkg: kernel 3 1 noarch
system x86_64 rpm system
job multiversion name kernel
job distupgrade all packages
result transaction,problems <inline>
