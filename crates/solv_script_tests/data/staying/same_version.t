# Of two packages of one version the installed one comes first.
repo available 0 testtags <inline>
#>=Pkg: A 1 1 noarch
repo system 0 testtags <inline>
#>=Pkg: A 1 1 noarch
system x86_64 rpm system
job update name A
result transaction,problems <inline>
