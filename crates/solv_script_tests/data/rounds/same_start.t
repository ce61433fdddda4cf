# Each round begins with what is installed, and with no job of the rounds before.
repo system 0 testtags <inline>
#>=Pkg: A 1 1 noarch
#>=Pkg: B 1 1 noarch
repo available 0 testtags <inline>
#>=Pkg: A 2 1 noarch
#>=Pkg: C 1 1 noarch
#>=Req: B
system x86_64 rpm system
job update all packages
nextjob
job erase name B
nextjob
job install name C
