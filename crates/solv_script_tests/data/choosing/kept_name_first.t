# What keeps A: a newer A comes before what obsoletes it, though the other name comes first.
repo available 0 testtags <inline>
#>=Pkg: new 1 1 noarch
#>=Obs: A < 2
#>=Pkg: A 2 1 noarch
repo system 0 testtags <inline>
#>=Pkg: A 1 1 noarch
system x86_64 rpm system
job update name A
result transaction,problems <inline>
#>upgrade A-1-1.noarch@system A-2-1.noarch@available
