# A better architecture comes before what no candidate obsoletes: a, though d obsoletes it, since d is disfavoured.
repo system 0 empty
repo available 0 testtags <inline>
#>=Pkg: a 1 1 x86_64
#>=Prv: v
#>=Pkg: c 1 1 i686
#>=Prv: v
#>=Pkg: d 1 1 x86_64
#>=Prv: v
#>=Obs: a
system x86_64 rpm system
job disfavor name d
job install provides v
result transaction,problems <inline>
#>install a-1-1.x86_64@available
