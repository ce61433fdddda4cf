# Jobs ask first, then installed packages, requirements, recommendations and supplements.
repo system 0 testtags <inline>
#>=Pkg: K 1 1 noarch
repo available 0 testtags <inline>
#>=Pkg: K 2 1 noarch
#>=Pkg: K 3 1 noarch
#>=Pkg: J1 1 1 noarch
#>=Prv: j
#>=Req: r
#>=Rec: w
#>=Pkg: J2 1 1 noarch
#>=Prv: j
#>=Pkg: r1 1 1 noarch
#>=Prv: r
#>=Pkg: r2 1 1 noarch
#>=Prv: r
#>=Pkg: w1 1 1 noarch
#>=Prv: w
#>=Pkg: w2 1 1 noarch
#>=Prv: w
#>=Pkg: s 1 1 noarch
#>=Sup: J1
#>=Pkg: s 2 1 noarch
#>=Sup: J1
system x86_64 rpm system
job update name K
job install provides j
result transaction,problems <inline>
#>install J1-1-1.noarch@available
#>install r1-1-1.noarch@available
#>install s-2-1.noarch@available
#>install w1-1-1.noarch@available
#>upgrade K-1-1.noarch@system K-3-1.noarch@available
