# What is broken already has no clauses until a later round verifies it; then no round is answered.
repo system 0 testtags <inline>
#>=Pkg: P 1 1 noarch
#>=Req: (a & b) | (a & b) | (a & b) | (a & b) | (a & b) | (a & b) | (a & b) | (a & b) | (a & b) | (a & b) | (a & b) | (a & b) | (a & b) | (a & b) | (a & b) | (a & b) | (a & b)
repo available 0 testtags <inline>
#>=Pkg: A 1 1 noarch
system x86_64 rpm system
job install name A
nextjob
job verify name P
