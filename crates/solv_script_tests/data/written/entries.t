# The lists of a package in their order, equal entries once. A requirement that is once `=Prq:` is due before the install, and the last vendor counts.
repo system 0 empty
repo available 0 testtags <inline>
#>=Ver: 3.0
#>=Pkg: P 1 1 noarch
#>=Fls: /usr/share/two  blanks 
#>=Fls:/bin/p
#>=Enh: eight
#>=Sup: seven
#>=Sug: six
#>=Rec: five
#>=Obs: four < 2
#>=Con: three
#>=Req: two
#>=Req: also >= 1
#>+Prq:
#>first
#>
#> 	two
#>-Prq:
#>=Req: first
#>=Prv: one = 1
#>=Prv: one
#>=Prv: one  =  1
#>=Vnd: overridden
#>=Vnd: 	A  Vendor of Things 	
#>=Vnd:
#>=Fls: 	/bin/p
#>=Req: also > 1
#>=Req: (also >= 1)
#>=Rec: (five)
#>=Con: three
#>=Tim: 17
#>no heading
#> =Req: nor here
#>+Pkg:
#>Q 1 1 noarch
#>R 1 1 noarch
#>-Pkg:
#>+Fls:
#>/etc/b
#>	
#>/etc/a 
#>/etc/b
#>-Fls:
#>+Xyz:
#>=Req: passed over
#>-Xyz:
#>=Vnd: 	
system x86_64 rpm system
job install name P
