# Without a system every architecture is taken, and nothing is installed.
repo available 0 testtags <inline>
#>=Pkg: A 1 1 sparc
#>=Pkg: A 2 1 noarch
#>=Pkg: A 3 1 alien
job install name A
result transaction,problems <inline>
#>install A-3-1.alien@available
