# A version that may stand beside others is still replaced by one that may not.
repo system 0 testtags <inline>
#>=Pkg: A 1 1 noarch
repo available 0 testtags <inline>
#>=Pkg: A 2 1 noarch
system x86_64 rpm system
job multiversion name A = 1
job update name A
result transaction,problems <inline>
#>upgrade A-1-1.noarch@system A-2-1.noarch@available
