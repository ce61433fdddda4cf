# A flag is set in the first round, kept by the second, and cleared behind the job of the third.
repo system 0 testtags <inline>
#>=Pkg: d 2 1 noarch
repo available 0 testtags <inline>
#>=Pkg: d 1 1 noarch
#>=Pkg: X 1 1 noarch
#>=Con: d = 2-1
system x86_64 rpm system
solverflags allowdowngrade
job install name X
nextjob
job install name X
nextjob
job install name X
solverflags !allowdowngrade
