# Names, EVRs and architectures as they stand. Where several packages have one text, only the first is disabled.
repo r@s 0 testtags <inline>
#>=Pkg: n 1 - x
#>=Pkg: a@b.c 1.0 1 noarch
#>=Pkg: twin 1 1 noarch
#>=Pkg:  twin	1 1  noarch 
#>=Prv: second
#>=Pkg: a-1 1 1 noarch
#>=Pkg: a 1-1 1 noarch
repo s 0 testtags <inline>
#>=Pkg: n 1 - x@r
#>=Pkg: e 1- - noarch
#>=Pkg: e - - noarch
#>=Pkg: e 2:1-1- - noarch
#>=Pkg: e 1-2-3 - noarch
#>=Pkg: e 1 2-3 noarch
#>=Pkg: e 4 5- noarch
#>=Pkg: e - 6 noarch
#>=Pkg: e -7 - noarch
disable pkg e-1-2-3.noarch@s
disable pkg e--.noarch@s
disable pkg a-1-1-1.noarch@r@s
disable pkg twin-1-1.noarch@r@s
disable  pkg  n-1.x@r@s
disable pkg twin-1-1.noarch@r@s
system x86_64 rpm s
job install name e = 1-
job erase pkg n-1.x@r@s
