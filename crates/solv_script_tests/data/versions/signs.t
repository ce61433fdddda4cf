# What each comparison meets: a provided version that a job's comparison takes in, or the other way round, is erased.
repo system 0 testtags <inline>
#>=Pkg: p01 1 1 noarch
#>=Prv: n01 = 1-1
#>=Pkg: p02 1 1 noarch
#>=Prv: n02 < 2-1
#>=Pkg: p03 1 1 noarch
#>=Prv: n03 = 2-1
#>=Pkg: p04 1 1 noarch
#>=Prv: n04 < 2-1
#>=Pkg: p05 1 1 noarch
#>=Prv: n05 = 2~-9
#>=Pkg: p06 1 1 noarch
#>=Prv: n06 < 2-1
#>=Pkg: p07 1 1 noarch
#>=Prv: n07 = 3-1
#>=Pkg: p08 1 1 noarch
#>=Prv: n08 < 2-1
#>=Pkg: p09 1 1 noarch
#>=Prv: n09 = 1-1
#>=Pkg: p10 1 1 noarch
#>=Prv: n10 <= 2-1
#>=Pkg: p11 1 1 noarch
#>=Prv: n11 = 2-1
#>=Pkg: p12 1 1 noarch
#>=Prv: n12 <= 2-1
#>=Pkg: p13 1 1 noarch
#>=Prv: n13 = 2~-9
#>=Pkg: p14 1 1 noarch
#>=Prv: n14 <= 2-1
#>=Pkg: p15 1 1 noarch
#>=Prv: n15 = 3-1
#>=Pkg: p16 1 1 noarch
#>=Prv: n16 <= 2-1
#>=Pkg: p17 1 1 noarch
#>=Prv: n17 = 1-1
#>=Pkg: p18 1 1 noarch
#>=Prv: n18 = 2-1
#>=Pkg: p19 1 1 noarch
#>=Prv: n19 = 2-1
#>=Pkg: p20 1 1 noarch
#>=Prv: n20 = 2-1
#>=Pkg: p21 1 1 noarch
#>=Prv: n21 = 2~-9
#>=Pkg: p22 1 1 noarch
#>=Prv: n22 = 2-1
#>=Pkg: p23 1 1 noarch
#>=Prv: n23 = 3-1
#>=Pkg: p24 1 1 noarch
#>=Prv: n24 = 2-1
#>=Pkg: p25 1 1 noarch
#>=Prv: n25 = 1-1
#>=Pkg: p26 1 1 noarch
#>=Prv: n26 >= 2-1
#>=Pkg: p27 1 1 noarch
#>=Prv: n27 = 2-1
#>=Pkg: p28 1 1 noarch
#>=Prv: n28 >= 2-1
#>=Pkg: p29 1 1 noarch
#>=Prv: n29 = 2~-9
#>=Pkg: p30 1 1 noarch
#>=Prv: n30 >= 2-1
#>=Pkg: p31 1 1 noarch
#>=Prv: n31 = 3-1
#>=Pkg: p32 1 1 noarch
#>=Prv: n32 >= 2-1
#>=Pkg: p33 1 1 noarch
#>=Prv: n33 = 1-1
#>=Pkg: p34 1 1 noarch
#>=Prv: n34 > 2-1
#>=Pkg: p35 1 1 noarch
#>=Prv: n35 = 2-1
#>=Pkg: p36 1 1 noarch
#>=Prv: n36 > 2-1
#>=Pkg: p37 1 1 noarch
#>=Prv: n37 = 2~-9
#>=Pkg: p38 1 1 noarch
#>=Prv: n38 > 2-1
#>=Pkg: p39 1 1 noarch
#>=Prv: n39 = 3-1
#>=Pkg: p40 1 1 noarch
#>=Prv: n40 > 2-1
#>=Pkg: p41 1 1 noarch
#>=Prv: n41 = 1-1
#>=Pkg: p42 1 1 noarch
#>=Prv: n42 <> 2-1
#>=Pkg: p43 1 1 noarch
#>=Prv: n43 = 2-1
#>=Pkg: p44 1 1 noarch
#>=Prv: n44 <> 2-1
#>=Pkg: p45 1 1 noarch
#>=Prv: n45 = 2~-9
#>=Pkg: p46 1 1 noarch
#>=Prv: n46 <> 2-1
#>=Pkg: p47 1 1 noarch
#>=Prv: n47 = 3-1
#>=Pkg: p48 1 1 noarch
#>=Prv: n48 <> 2-1
repo available 0 testtags <inline>
system x86_64 rpm system
job erase provides n01 < 2-1
job erase provides n02 = 1-1
job erase provides n03 < 2-1
job erase provides n04 = 2-1
job erase provides n05 < 2-1
job erase provides n06 = 2~-9
job erase provides n07 < 2-1
job erase provides n08 = 3-1
job erase provides n09 <= 2-1
job erase provides n10 = 1-1
job erase provides n11 <= 2-1
job erase provides n12 = 2-1
job erase provides n13 <= 2-1
job erase provides n14 = 2~-9
job erase provides n15 <= 2-1
job erase provides n16 = 3-1
job erase provides n17 = 2-1
job erase provides n18 = 1-1
job erase provides n19 = 2-1
job erase provides n20 = 2-1
job erase provides n21 = 2-1
job erase provides n22 = 2~-9
job erase provides n23 = 2-1
job erase provides n24 = 3-1
job erase provides n25 >= 2-1
job erase provides n26 = 1-1
job erase provides n27 >= 2-1
job erase provides n28 = 2-1
job erase provides n29 >= 2-1
job erase provides n30 = 2~-9
job erase provides n31 >= 2-1
job erase provides n32 = 3-1
job erase provides n33 > 2-1
job erase provides n34 = 1-1
job erase provides n35 > 2-1
job erase provides n36 = 2-1
job erase provides n37 > 2-1
job erase provides n38 = 2~-9
job erase provides n39 > 2-1
job erase provides n40 = 3-1
job erase provides n41 <> 2-1
job erase provides n42 = 1-1
job erase provides n43 <> 2-1
job erase provides n44 = 2-1
job erase provides n45 <> 2-1
job erase provides n46 = 2~-9
job erase provides n47 <> 2-1
job erase provides n48 = 3-1
result transaction,problems <inline>
#>erase p01-1-1.noarch@system
#>erase p02-1-1.noarch@system
#>erase p05-1-1.noarch@system
#>erase p06-1-1.noarch@system
#>erase p09-1-1.noarch@system
#>erase p10-1-1.noarch@system
#>erase p11-1-1.noarch@system
#>erase p12-1-1.noarch@system
#>erase p13-1-1.noarch@system
#>erase p14-1-1.noarch@system
#>erase p19-1-1.noarch@system
#>erase p20-1-1.noarch@system
#>erase p27-1-1.noarch@system
#>erase p28-1-1.noarch@system
#>erase p31-1-1.noarch@system
#>erase p32-1-1.noarch@system
#>erase p39-1-1.noarch@system
#>erase p40-1-1.noarch@system
#>erase p41-1-1.noarch@system
#>erase p42-1-1.noarch@system
#>erase p45-1-1.noarch@system
#>erase p46-1-1.noarch@system
#>erase p47-1-1.noarch@system
#>erase p48-1-1.noarch@system
