# without a `result` line the lines of the changes are told, sorted by bytes
repo system 0 testtags <inline>
#>=Pkg: B 1 1 noarch
repo available 0 testtags <inline>
#>=Pkg: C 1 1 noarch
#>=Pkg: A 1 1 noarch
system x86_64 rpm system
job install name C
job install name A
job erase name B
