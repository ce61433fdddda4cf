# Versions of a package that may stand beside each other.
repo system 0 testtags <inline>
#>=Pkg: kernel 2 1 noarch
repo available 0 testtags <inline>
#>=Pkg: kernel 3 1 noarch
system x86_64 rpm system
job multiversion name kernel
job install name kernel = 3
result transaction,problems <inline>
#>install kernel-3-1.noarch@available
