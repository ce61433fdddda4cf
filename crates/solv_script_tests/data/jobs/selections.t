# Jobs select by name, by what is provided, and by packages; what they select is erased.
repo system 0 testtags <inline>
#>=Pkg: Xa 1 1 noarch
#>=Pkg: Xa 2 1 noarch
#>=Pkg: Ya 1 1 noarch
#>=Prv: Xa = 3
#>=Pkg: Xb 1 1 noarch
#>=Pkg: Xb 2 1 noarch
#>=Pkg: Yb 1 1 noarch
#>=Prv: Xb = 3
#>=Pkg: Xc 1 1 noarch
#>=Pkg: Xc 2 1 noarch
#>=Pkg: Yc 1 1 noarch
#>=Prv: Xc = 3
#>=Pkg: Xd 1 1 noarch
#>=Pkg: Xd 2 1 noarch
#>=Pkg: Yd 1 1 noarch
#>=Prv: Xd = 3
#>=Pkg: Xe 1 1 noarch
#>=Pkg: Xe 2 1 noarch
#>=Pkg: Ye 1 1 noarch
#>=Prv: Xe = 3
#>=Pkg: Xf 1 1 noarch
#>=Pkg: Xf 2 1 noarch
#>=Pkg: Yf 1 1 noarch
#>=Prv: Xf = 3
#>=Pkg: Xg 1 1 noarch
#>=Pkg: Xg 2 1 noarch
#>=Pkg: Yg 1 1 noarch
#>=Prv: Xg = 3
#>=Pkg: Xh 1 1 noarch
#>=Pkg: Xh 2 1 noarch
#>=Pkg: Yh 1 1 noarch
#>=Prv: Xh = 3
repo available 0 testtags <inline>
system x86_64 rpm system
job erase name Xa
job erase name Xb = 2
job erase provides Xc
job erase provides Xd >= 3
job erase oneof Ye-1-1.noarch@system Xe-1-1.noarch@system Ye-1-1.noarch@system
job erase pkg Xf-2-1.noarch@system
job erase name Yg < 1
job erase name Xh < 2-1
result transaction,problems <inline>
#>erase Xa-1-1.noarch@system
#>erase Xa-2-1.noarch@system
#>erase Xb-2-1.noarch@system
#>erase Xc-1-1.noarch@system
#>erase Xc-2-1.noarch@system
#>erase Xe-1-1.noarch@system
#>erase Xf-2-1.noarch@system
#>erase Xh-1-1.noarch@system
#>erase Yc-1-1.noarch@system
#>erase Yd-1-1.noarch@system
#>erase Ye-1-1.noarch@system
