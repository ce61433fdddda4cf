# What P requires counts in the second round alone, where it is verified, and has more clauses than a dependency may have. The proofs are not asked for.
repo system 0 testtags <inline>
#>=Pkg: P 1 1 noarch
#>=Req: (a & b) | (a & b) | (a & b) | (a & b) | (a & b) | (a & b) | (a & b) | (a & b) | (a & b) | (a & b) | (a & b) | (a & b) | (a & b) | (a & b) | (a & b) | (a & b) | (a & b)
repo available 0 testtags <inline>
#>=Pkg: a 1 1 noarch
#>=Pkg: b 1 1 noarch
system x86_64 rpm system
job install name nosuch
nextjob
job verify all packages
