# A name that is provided many times: those that meet are found in the order of EVRs, or where one is a range by a look at each.
repo system 0 testtags <inline>
#>=Pkg: p01 1 1 noarch
#>=Prv: a = 1-1
#>=Prv: b = 34-1
#>=Pkg: p02 1 1 noarch
#>=Prv: a = 2-1
#>=Prv: b = 33-1
#>=Pkg: p03 1 1 noarch
#>=Prv: a = 3-1
#>=Prv: b = 32-1
#>=Pkg: p04 1 1 noarch
#>=Prv: a = 4-1
#>=Prv: b = 31-1
#>=Pkg: p05 1 1 noarch
#>=Prv: a = 5-1
#>=Prv: b = 30-1
#>=Pkg: p06 1 1 noarch
#>=Prv: a = 6-1
#>=Prv: b = 29-1
#>=Pkg: p07 1 1 noarch
#>=Prv: a = 7-1
#>=Prv: b = 28-1
#>=Pkg: p08 1 1 noarch
#>=Prv: a = 8-1
#>=Prv: b = 27-1
#>=Pkg: p09 1 1 noarch
#>=Prv: a = 9-1
#>=Prv: b = 26-1
#>=Pkg: p10 1 1 noarch
#>=Prv: a = 10-1
#>=Prv: b = 25-1
#>=Pkg: p11 1 1 noarch
#>=Prv: a = 11-1
#>=Prv: b = 24-1
#>=Pkg: p12 1 1 noarch
#>=Prv: a = 12-1
#>=Prv: b = 23-1
#>=Pkg: p13 1 1 noarch
#>=Prv: a = 13-1
#>=Prv: b = 22-1
#>=Pkg: p14 1 1 noarch
#>=Prv: a = 14-1
#>=Prv: b = 21-1
#>=Pkg: p15 1 1 noarch
#>=Prv: a = 15-1
#>=Prv: b = 20-1
#>=Pkg: p16 1 1 noarch
#>=Prv: a = 16-1
#>=Prv: b = 19-1
#>=Pkg: p17 1 1 noarch
#>=Prv: a = 17-1
#>=Prv: b = 18-1
#>=Pkg: p18 1 1 noarch
#>=Prv: a = 18-1
#>=Prv: b = 17-1
#>=Pkg: p19 1 1 noarch
#>=Prv: a = 19-1
#>=Prv: b = 16-1
#>=Pkg: p20 1 1 noarch
#>=Prv: a = 20-1
#>=Prv: b = 15-1
#>=Pkg: p21 1 1 noarch
#>=Prv: a = 21-1
#>=Prv: b = 14-1
#>=Pkg: p22 1 1 noarch
#>=Prv: a = 22-1
#>=Prv: b = 13-1
#>=Pkg: p23 1 1 noarch
#>=Prv: a = 23-1
#>=Prv: b = 12-1
#>=Pkg: p24 1 1 noarch
#>=Prv: a = 24-1
#>=Prv: b = 11-1
#>=Pkg: p25 1 1 noarch
#>=Prv: a = 25-1
#>=Prv: b = 10-1
#>=Pkg: p26 1 1 noarch
#>=Prv: a = 26-1
#>=Prv: b = 9-1
#>=Pkg: p27 1 1 noarch
#>=Prv: a = 27-1
#>=Prv: b = 8-1
#>=Pkg: p28 1 1 noarch
#>=Prv: a = 28-1
#>=Prv: b = 7-1
#>=Pkg: p29 1 1 noarch
#>=Prv: a = 29-1
#>=Prv: b = 6-1
#>=Pkg: p30 1 1 noarch
#>=Prv: a = 30-1
#>=Prv: b = 5-1
#>=Pkg: p31 1 1 noarch
#>=Prv: a = 31-1
#>=Prv: b = 4-1
#>=Pkg: p32 1 1 noarch
#>=Prv: a = 32-1
#>=Prv: b = 3-1
#>=Pkg: p33 1 1 noarch
#>=Prv: a = 33-1
#>=Prv: b = 2-1
#>=Pkg: p34 1 1 noarch
#>=Prv: a = 34-1
#>=Prv: b = 1-1
#>=Pkg: no_release 1 1 noarch
#>=Prv: a = 17
#>=Pkg: no_version 1 1 noarch
#>=Prv: a
#>=Pkg: range 1 1 noarch
#>=Prv: b >= 30
repo available 0 testtags <inline>
system x86_64 rpm system
job erase provides a < 3
job erase provides a > 33
job erase provides a = 17-1
job erase provides a = 5
job erase provides b = 33-7
job erase provides b = 20-1
result transaction,problems <inline>
#>erase no_release-1-1.noarch@system
#>erase no_version-1-1.noarch@system
#>erase p01-1-1.noarch@system
#>erase p02-1-1.noarch@system
#>erase p05-1-1.noarch@system
#>erase p15-1-1.noarch@system
#>erase p17-1-1.noarch@system
#>erase p34-1-1.noarch@system
#>erase range-1-1.noarch@system
