# An update that cannot be had.
repo system 0 testtags <inline>
#>=Pkg: A 1 1 noarch
repo available 0 testtags <inline>
#>=Pkg: A 2 1 noarch
#>=Req: missing
system x86_64 rpm system
job update name A
result transaction,problems <inline>
