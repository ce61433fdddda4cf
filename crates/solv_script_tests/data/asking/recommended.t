# What comes brings what it recommends; what is installed does not.
repo system 0 testtags <inline>
#>=Pkg: I 1 1 noarch
#>=Rec: R
repo available 0 testtags <inline>
#>=Pkg: P 1 1 noarch
#>=Rec: Q
#>=Pkg: Q 1 1 noarch
#>=Pkg: R 1 1 noarch
system x86_64 rpm system
job install name P
result transaction,problems <inline>
#>install P-1-1.noarch@available
#>install Q-1-1.noarch@available
