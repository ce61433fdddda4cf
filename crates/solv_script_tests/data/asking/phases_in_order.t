# In another order of the questions J, q1 or w1 would be missing, or r1 would come.
repo system 0 testtags <inline>
#>=Pkg: K 1 1 noarch
repo available 0 testtags <inline>
#>=Pkg: J 1 1 noarch
#>=Prv: j
#>=Req: r
#>=Req: q
#>=Rec: q2
#>=Rec: w
#>=Pkg: r1 1 1 noarch
#>=Prv: r
#>=Pkg: K 2 1 noarch
#>=Prv: j
#>=Prv: r
#>=Pkg: q1 1 1 noarch
#>=Prv: q
#>=Pkg: q2 1 1 noarch
#>=Prv: q
#>=Pkg: w1 1 1 noarch
#>=Prv: w
#>=Pkg: w2 1 1 noarch
#>=Prv: w
#>=Sup: J
system x86_64 rpm system
job update name K
job install provides j
result transaction,problems <inline>
#>install J-1-1.noarch@available
#>install q1-1-1.noarch@available
#>install q2-1-1.noarch@available
#>install w1-1-1.noarch@available
#>install w2-1-1.noarch@available
#>upgrade K-1-1.noarch@system K-2-1.noarch@available
