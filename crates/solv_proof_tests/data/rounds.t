# Three rounds over the same packages. The first and the last have problems.
repo system 0 empty
repo available 0 testtags <inline>
#>=Pkg: A 1 1 noarch
#>=Req: missing
#>=Pkg: B 1 1 noarch
system x86_64 rpm system
job install name A
nextjob
job install name B
nextjob
job install name nosuch
job install name A
