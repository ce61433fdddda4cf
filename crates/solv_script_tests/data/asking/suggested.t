# What is suggested or enhances does not come.
repo system 0 empty
repo available 0 testtags <inline>
#>=Pkg: P 1 1 noarch
#>=Sug: Q
#>=Pkg: Q 1 1 noarch
#>=Pkg: R 1 1 noarch
#>=Enh: P
system x86_64 rpm system
job install name P
result transaction,problems <inline>
#>install P-1-1.noarch@available
