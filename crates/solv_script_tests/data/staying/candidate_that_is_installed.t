# An installed package that is not to be updated comes first.
repo system 0 testtags <inline>
#>=Pkg: A 1 1 noarch
repo available 0 testtags <inline>
#>=Pkg: A 2 1 noarch
system x86_64 rpm system
job install name A
result transaction,problems <inline>
