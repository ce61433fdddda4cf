# The second round has other rules than the first and the last, and there is no fourth one.
repo system 0 empty
repo available 0 testtags <inline>
#>=Pkg: A 1 1 noarch
#>=Req: missing
#>=Pkg: B 1 1 noarch
system x86_64 rpm system
job install name A
nextjob
job install name B
nextjob
job install name nosuch
job install name A
