# A package of its name is there, so no other one comes as a supplement.
repo system 0 testtags <inline>
#>=Pkg: L 1 1 noarch
#>=Pkg: x 1 1 noarch
repo available 0 testtags <inline>
#>=Pkg: L 2 1 noarch
#>=Sup: x
system x86_64 rpm system
job multiversion all packages
result transaction,problems <inline>
