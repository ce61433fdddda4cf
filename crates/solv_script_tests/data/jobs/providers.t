# Packages meet a dependency by their own name and version, by what they provide, and by their files.
repo system 0 testtags <inline>
#>=Pkg: A01 1 1 noarch
#>=Prv: x01 = 3
#>=Fls: /bin/a01
#>=Pkg: lib01 1 1 noarch
#>=Prv: x01
#>=Fls: /lib/101
#>=Pkg: lib01 2 1 noarch
#>=Prv: x01 < 2
#>=Fls: /lib/201
#>=Pkg: other01 1 1 noarch
#>=Prv: lib01
#>=Fls: /bin/other01
#>=Pkg: A02 1 1 noarch
#>=Prv: x02 = 3
#>=Fls: /bin/a02
#>=Pkg: lib02 1 1 noarch
#>=Prv: x02
#>=Fls: /lib/102
#>=Pkg: lib02 2 1 noarch
#>=Prv: x02 < 2
#>=Fls: /lib/202
#>=Pkg: other02 1 1 noarch
#>=Prv: lib02
#>=Fls: /bin/other02
#>=Pkg: A03 1 1 noarch
#>=Prv: x03 = 3
#>=Fls: /bin/a03
#>=Pkg: lib03 1 1 noarch
#>=Prv: x03
#>=Fls: /lib/103
#>=Pkg: lib03 2 1 noarch
#>=Prv: x03 < 2
#>=Fls: /lib/203
#>=Pkg: other03 1 1 noarch
#>=Prv: lib03
#>=Fls: /bin/other03
#>=Pkg: A04 1 1 noarch
#>=Prv: x04 = 3
#>=Fls: /bin/a04
#>=Pkg: lib04 1 1 noarch
#>=Prv: x04
#>=Fls: /lib/104
#>=Pkg: lib04 2 1 noarch
#>=Prv: x04 < 2
#>=Fls: /lib/204
#>=Pkg: other04 1 1 noarch
#>=Prv: lib04
#>=Fls: /bin/other04
#>=Pkg: A05 1 1 noarch
#>=Prv: x05 = 3
#>=Fls: /bin/a05
#>=Pkg: lib05 1 1 noarch
#>=Prv: x05
#>=Fls: /lib/105
#>=Pkg: lib05 2 1 noarch
#>=Prv: x05 < 2
#>=Fls: /lib/205
#>=Pkg: other05 1 1 noarch
#>=Prv: lib05
#>=Fls: /bin/other05
#>=Pkg: A06 1 1 noarch
#>=Prv: x06 = 3
#>=Fls: /bin/a06
#>=Pkg: lib06 1 1 noarch
#>=Prv: x06
#>=Fls: /lib/106
#>=Pkg: lib06 2 1 noarch
#>=Prv: x06 < 2
#>=Fls: /lib/206
#>=Pkg: other06 1 1 noarch
#>=Prv: lib06
#>=Fls: /bin/other06
#>=Pkg: A07 1 1 noarch
#>=Prv: x07 = 3
#>=Fls: /bin/a07
#>=Pkg: lib07 1 1 noarch
#>=Prv: x07
#>=Fls: /lib/107
#>=Pkg: lib07 2 1 noarch
#>=Prv: x07 < 2
#>=Fls: /lib/207
#>=Pkg: other07 1 1 noarch
#>=Prv: lib07
#>=Fls: /bin/other07
#>=Pkg: A08 1 1 noarch
#>=Prv: x08 = 3
#>=Fls: /bin/a08
#>=Pkg: lib08 1 1 noarch
#>=Prv: x08
#>=Fls: /lib/108
#>=Pkg: lib08 2 1 noarch
#>=Prv: x08 < 2
#>=Fls: /lib/208
#>=Pkg: other08 1 1 noarch
#>=Prv: lib08
#>=Fls: /bin/other08
#>=Pkg: A09 1 1 noarch
#>=Prv: x09 = 3
#>=Fls: /bin/a09
#>=Pkg: lib09 1 1 noarch
#>=Prv: x09
#>=Fls: /lib/109
#>=Pkg: lib09 2 1 noarch
#>=Prv: x09 < 2
#>=Fls: /lib/209
#>=Pkg: other09 1 1 noarch
#>=Prv: lib09
#>=Fls: /bin/other09
#>=Pkg: A10 1 1 noarch
#>=Prv: x10 = 3
#>=Fls: /bin/a10
#>=Pkg: lib10 1 1 noarch
#>=Prv: x10
#>=Fls: /lib/110
#>=Pkg: lib10 2 1 noarch
#>=Prv: x10 < 2
#>=Fls: /lib/210
#>=Pkg: other10 1 1 noarch
#>=Prv: lib10
#>=Fls: /bin/other10
#>=Pkg: A11 1 1 noarch
#>=Prv: x11 = 3
#>=Fls: /bin/a11
#>=Pkg: lib11 1 1 noarch
#>=Prv: x11
#>=Fls: /lib/111
#>=Pkg: lib11 2 1 noarch
#>=Prv: x11 < 2
#>=Fls: /lib/211
#>=Pkg: other11 1 1 noarch
#>=Prv: lib11
#>=Fls: /bin/other11
#>=Pkg: A12 1 1 noarch
#>=Prv: x12 = 3
#>=Fls: /bin/a12
#>=Pkg: lib12 1 1 noarch
#>=Prv: x12
#>=Fls: /lib/112
#>=Pkg: lib12 2 1 noarch
#>=Prv: x12 < 2
#>=Fls: /lib/212
#>=Pkg: other12 1 1 noarch
#>=Prv: lib12
#>=Fls: /bin/other12
#>=Pkg: A13 1 1 noarch
#>=Prv: x13 = 3
#>=Fls: /bin/a13
#>=Pkg: lib13 1 1 noarch
#>=Prv: x13
#>=Fls: /lib/113
#>=Pkg: lib13 2 1 noarch
#>=Prv: x13 < 2
#>=Fls: /lib/213
#>=Pkg: other13 1 1 noarch
#>=Prv: lib13
#>=Fls: /bin/other13
#>=Pkg: A14 1 1 noarch
#>=Prv: x14 = 3
#>=Fls: /bin/a14
#>=Pkg: lib14 1 1 noarch
#>=Prv: x14
#>=Fls: /lib/114
#>=Pkg: lib14 2 1 noarch
#>=Prv: x14 < 2
#>=Fls: /lib/214
#>=Pkg: other14 1 1 noarch
#>=Prv: lib14
#>=Fls: /bin/other14
#>=Pkg: A15 1 1 noarch
#>=Prv: x15 = 3
#>=Fls: /bin/a15
#>=Pkg: lib15 1 1 noarch
#>=Prv: x15
#>=Fls: /lib/115
#>=Pkg: lib15 2 1 noarch
#>=Prv: x15 < 2
#>=Fls: /lib/215
#>=Pkg: other15 1 1 noarch
#>=Prv: lib15
#>=Fls: /bin/other15
repo available 0 testtags <inline>
system x86_64 rpm system
job erase name lib01
job erase provides lib02
job erase provides lib03 >= 2
job erase name lib04 >= 2
job erase provides lib05 < 2
job erase name lib06 < 2
job erase provides lib07 = 2-1
job erase name lib08 = 2-1
job erase provides x09
job erase provides x10 >= 3
job erase provides x11 < 3
job erase provides nosuch12
job erase provides /bin/other13
job erase provides /bin/other14 = 9
job erase name x15
result transaction,problems <inline>
#>erase A09-1-1.noarch@system
#>erase A10-1-1.noarch@system
#>erase lib01-1-1.noarch@system
#>erase lib01-2-1.noarch@system
#>erase lib02-1-1.noarch@system
#>erase lib02-2-1.noarch@system
#>erase lib03-2-1.noarch@system
#>erase lib04-2-1.noarch@system
#>erase lib05-1-1.noarch@system
#>erase lib06-1-1.noarch@system
#>erase lib07-2-1.noarch@system
#>erase lib08-2-1.noarch@system
#>erase lib09-1-1.noarch@system
#>erase lib09-2-1.noarch@system
#>erase lib10-1-1.noarch@system
#>erase lib11-1-1.noarch@system
#>erase lib11-2-1.noarch@system
#>erase other02-1-1.noarch@system
#>erase other03-1-1.noarch@system
#>erase other05-1-1.noarch@system
#>erase other07-1-1.noarch@system
#>erase other13-1-1.noarch@system
#>erase other14-1-1.noarch@system
