# Versions that may stand beside each other do not take each other's place.
repo system 0 testtags <inline>
#>=Pkg: A 1 1 noarch
repo available 0 testtags <inline>
#>=Pkg: A 2 1 noarch
system x86_64 rpm system
job multiversion name A
job update all packages
result transaction,problems <inline>
