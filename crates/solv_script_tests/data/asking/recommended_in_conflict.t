# What is recommended and does not fit is left out.
repo system 0 empty
repo available 0 testtags <inline>
#>=Pkg: P 1 1 noarch
#>=Rec: Q
#>=Rec: R
#>=Con: Q
#>=Pkg: Q 1 1 noarch
#>=Pkg: R 1 1 noarch
system x86_64 rpm system
job install name P
result transaction,problems <inline>
#>install P-1-1.noarch@available
#>install R-1-1.noarch@available
