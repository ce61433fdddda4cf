# Two rounds over the same packages: the lines of each, with a line `nextjob` between.
repo system 0 empty
repo available 0 testtags <inline>
#>=Pkg: A 1 1 noarch
system x86_64 rpm system
job install name A
nextjob
job install name nosuch
