# Ranges of versions meet where they overlap; where one side has no release, its own sign has to have `=`.
repo system 0 testtags <inline>
#>=Pkg: p01 1 1 noarch
#>=Prv: n01 < 2-1
#>=Pkg: p02 1 1 noarch
#>=Prv: n02 > 1-1
#>=Pkg: p03 1 1 noarch
#>=Prv: n03 < 1-1
#>=Pkg: p04 1 1 noarch
#>=Prv: n04 > 2-1
#>=Pkg: p05 1 1 noarch
#>=Prv: n05 <= 1-1
#>=Pkg: p06 1 1 noarch
#>=Prv: n06 >= 1-1
#>=Pkg: p07 1 1 noarch
#>=Prv: n07 < 1-1
#>=Pkg: p08 1 1 noarch
#>=Prv: n08 >= 1-1
#>=Pkg: p09 1 1 noarch
#>=Prv: n09 < 1-1
#>=Pkg: p10 1 1 noarch
#>=Prv: n10 < 9-1
#>=Pkg: p11 1 1 noarch
#>=Prv: n11 <> 1-1
#>=Pkg: p12 1 1 noarch
#>=Prv: n12 <> 1-1
#>=Pkg: p13 1 1 noarch
#>=Prv: n13 = 1
#>=Pkg: p14 1 1 noarch
#>=Prv: n14 = 1-1
#>=Pkg: p15 1 1 noarch
#>=Prv: n15 = 1
#>=Pkg: p16 1 1 noarch
#>=Prv: n16 < 1-1
#>=Pkg: p17 1 1 noarch
#>=Prv: n17 > 1
#>=Pkg: p18 1 1 noarch
#>=Prv: n18 = 1-1
#>=Pkg: p19 1 1 noarch
#>=Prv: n19 <= 1
#>=Pkg: p20 1 1 noarch
#>=Prv: n20 > 1-1
#>=Pkg: p21 1 1 noarch
#>=Prv: n21 = 1-1
#>=Pkg: p22 1 1 noarch
#>=Prv: n22 = 1
#>=Pkg: p23 1 1 noarch
#>=Prv: n23 = 1-1
#>=Pkg: p24 1 1 noarch
#>=Prv: n24 > 1
#>=Pkg: p25 1 1 noarch
#>=Prv: n25 < 1-1
#>=Pkg: p26 1 1 noarch
#>=Prv: n26 >= 1
#>=Pkg: p27 1 1 noarch
#>=Prv: n27 = 1
#>=Pkg: p28 1 1 noarch
#>=Prv: n28 = 1
#>=Pkg: p29 1 1 noarch
#>=Prv: n29 = 1:1
#>=Pkg: p30 1 1 noarch
#>=Prv: n30 = 1-1
#>=Pkg: p31 1 1 noarch
#>=Prv: n31 = 1-
#>=Pkg: p32 1 1 noarch
#>=Prv: n32 = 1-1
repo available 0 testtags <inline>
system x86_64 rpm system
job erase provides n01 > 1-1
job erase provides n02 < 2-1
job erase provides n03 > 2-1
job erase provides n04 < 1-1
job erase provides n05 >= 1-1
job erase provides n06 <= 1-1
job erase provides n07 >= 1-1
job erase provides n08 < 1-1
job erase provides n09 < 9-1
job erase provides n10 < 1-1
job erase provides n11 <> 1-1
job erase provides n12 <> 1-1
job erase provides n13 = 1-1
job erase provides n14 = 1
job erase provides n15 < 1-1
job erase provides n16 = 1
job erase provides n17 = 1-1
job erase provides n18 > 1
job erase provides n19 > 1-1
job erase provides n20 <= 1
job erase provides n21 = 1
job erase provides n22 = 1-1
job erase provides n23 > 1
job erase provides n24 = 1-1
job erase provides n25 >= 1
job erase provides n26 < 1-1
job erase provides n27 = 1
job erase provides n28 = 1
job erase provides n29 = 1-1
job erase provides n30 = 1:1
job erase provides n31 = 1-1
job erase provides n32 = 1-
result transaction,problems <inline>
#>erase p01-1-1.noarch@system
#>erase p02-1-1.noarch@system
#>erase p05-1-1.noarch@system
#>erase p06-1-1.noarch@system
#>erase p09-1-1.noarch@system
#>erase p10-1-1.noarch@system
#>erase p11-1-1.noarch@system
#>erase p12-1-1.noarch@system
#>erase p13-1-1.noarch@system
#>erase p14-1-1.noarch@system
#>erase p15-1-1.noarch@system
#>erase p16-1-1.noarch@system
#>erase p19-1-1.noarch@system
#>erase p20-1-1.noarch@system
#>erase p21-1-1.noarch@system
#>erase p22-1-1.noarch@system
#>erase p25-1-1.noarch@system
#>erase p26-1-1.noarch@system
#>erase p27-1-1.noarch@system
#>erase p28-1-1.noarch@system
