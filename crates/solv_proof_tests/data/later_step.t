# The second step is bad.
repo system 0 empty
repo available 0 testtags <inline>
#>=Pkg: A 1 1 noarch
#>=Pkg: B 1 1 noarch
#>=Pkg: C 1 1 noarch
#>=Con: A & B
system x86_64 rpm system
job install name A
job install name B
job install name C
