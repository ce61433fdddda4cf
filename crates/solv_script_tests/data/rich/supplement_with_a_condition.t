# A supplement holds where its condition does not.
repo system 0 empty
repo available 0 testtags <inline>
#>=Pkg: a 1 1 noarch
#>=Pkg: s 1 1 noarch
#>=Sup: x <IF> y
#>=Pkg: y 1 1 noarch
system x86_64 rpm system
job install name a
result transaction,problems <inline>
#>install a-1-1.noarch@available
#>install s-1-1.noarch@available
