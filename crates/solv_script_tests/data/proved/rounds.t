# Proofs name their round, are numbered from 1 in each, and have no line between the rounds; a round with a transaction has none.
repo system 0 empty
repo available 0 testtags <inline>
#>=Pkg: A 1 1 noarch
#>=Req: missing
#>=Pkg: B 1 1 noarch
system x86_64 rpm system
job install name nosuch
nextjob
job install name B
nextjob
job install name A
job install name nosuch
