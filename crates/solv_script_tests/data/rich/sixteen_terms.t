# The most clauses that a dependency may have.
repo system 0 empty
repo available 0 testtags <inline>
#>=Pkg: P 1 1 noarch
#>=Req: (a & b) | (a & b) | (a & b) | (a & b) | (a & b) | (a & b) | (a & b) | (a & b) | (a & b) | (a & b) | (a & b) | (a & b) | (a & b) | (a & b) | (a & b) | (a & b)
#>=Pkg: a 1 1 noarch
#>=Pkg: b 1 1 noarch
system x86_64 rpm system
result transaction,problems <inline>
