# Blocks, equal entries, and lines that are passed over.
repo system 0 testtags <inline>
#>=Pkg: v 1 1 noarch
#>=Vnd: The  Vendor
repo available 0 testtags <inline>
#>=Ver: 3.0
#>some text
#>=Pkg: P 1 - noarch
#>=Ver: x & y
#>+Req:
#>q
#> 
#>r >= 1
#>-Req:
#>=Prq: q
#>+Xyz:
#>=Pkg: B
#>-Xyz:
#>=Fls:
#>=Fls: /bin/p 
#>+Pkg:
#>q 1 1 noarch
#>r 1 1 noarch
#>-Pkg:
#>=Prv: s
#>=Xyz: (
#>=Pkg: v 2 1 noarch
#>=Vnd: one
#>=Vnd:	The  Vendor 	
#>=Vnd:
system x86_64 rpm system
job install provides /bin/p
job install provides s
job update name v
result transaction,problems <inline>
#>install P-1.noarch@available
#>install q-1-1.noarch@available
#>install r-1-1.noarch@available
#>upgrade v-1-1.noarch@system v-2-1.noarch@available
