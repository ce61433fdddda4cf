# Two jobs fail, each for its own cause, so there are two proofs.
repo system 0 empty
repo available 0 testtags <inline>
#>=Pkg: A 1 1 noarch
#>=Req: missing
system x86_64 rpm system
job install name A
job install name nosuch
