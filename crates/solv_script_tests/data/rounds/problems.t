# Problems are numbered from 1 in each round; names and versions that no line before had may stand in a later one.
repo system 0 empty
repo available 0 testtags <inline>
#>=Pkg: A 1 1 noarch
system x86_64 rpm system
job install name n1
job install name n2 >= 2
nextjob
job install name A
nextjob
job install provides n3 = 3:3-3
job install name n1
