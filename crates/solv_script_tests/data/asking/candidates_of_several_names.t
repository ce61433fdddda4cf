# Names are ranked by their first candidate that provides what is asked for.
repo system 0 empty
repo available 0 testtags <inline>
#>=Pkg: a 1 1 noarch
#>=Prv: virtual
#>=Pkg: b 2 1 noarch
#>=Prv: virtual
#>=Pkg: a 3 1 noarch
#>=Pkg: a 2 1 noarch
#>=Prv: virtual
system x86_64 rpm system
job install provides virtual
result transaction,problems <inline>
#>install a-2-1.noarch@available
