# A greater priority comes before a better architecture.
repo system 0 empty
repo low 0 testtags <inline>
#>=Pkg: a 1 1 x86_64
#>=Prv: v
repo high 5 testtags <inline>
#>=Pkg: b 1 1 i686
#>=Prv: v
system x86_64 rpm system
job install provides v
result transaction,problems <inline>
#>install b-1-1.i686@high
