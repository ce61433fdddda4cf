# A newer package of the name comes before one that obsoletes the installed one.
repo system 0 testtags <inline>
#>=Pkg: K 1 1 noarch
repo available 0 testtags <inline>
#>=Pkg: M 1 1 noarch
#>=Obs: K = 1-1
#>=Pkg: K 2 1 noarch
system x86_64 rpm system
job update name K
result transaction,problems <inline>
#>upgrade K-1-1.noarch@system K-2-1.noarch@available
