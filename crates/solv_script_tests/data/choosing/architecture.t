# The better architecture comes first, and noarch is as good as the best.
repo system 0 empty
repo available 0 testtags <inline>
#>=Pkg: a 1 1 i686
#>=Prv: v
#>=Pkg: b 1 1 noarch
#>=Prv: v
#>=Pkg: c 1 1 x86_64
#>=Prv: v
#>=Pkg: d 1 1 i586
#>=Prv: w
#>=Pkg: e 1 1 i686
#>=Prv: w
system x86_64 rpm system
job install provides v
job install provides w
result transaction,problems <inline>
#>install b-1-1.noarch@available
#>install e-1-1.i686@available
