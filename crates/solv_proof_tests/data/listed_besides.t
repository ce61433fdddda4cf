# A rule that the derivation does not rest on may be listed.
repo system 0 empty
repo available 0 testtags <inline>
#>=Pkg: A 1 1 noarch
#>=Req: missing
system x86_64 rpm system
job install name A
job install name nosuch
