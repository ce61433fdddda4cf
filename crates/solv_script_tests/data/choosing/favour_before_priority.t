# A favoured package comes before one of a greater priority.
repo system 0 empty
repo low 0 testtags <inline>
#>=Pkg: a 1 1 noarch
#>=Prv: v
repo high 5 testtags <inline>
#>=Pkg: b 1 1 noarch
#>=Prv: v
system x86_64 rpm system
job favor name a
job install provides v
result transaction,problems <inline>
#>install a-1-1.noarch@low
