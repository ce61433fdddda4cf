# What obsoletes a package and is no candidate does not put it back.
repo system 0 empty
repo available 0 testtags <inline>
#>=Pkg: a 1 1 noarch
#>=Prv: v
#>=Pkg: b 1 1 noarch
#>=Prv: v
#>=Pkg: z 1 1 noarch
#>=Obs: a
system x86_64 rpm system
job install provides v
result transaction,problems <inline>
#>install a-1-1.noarch@available
