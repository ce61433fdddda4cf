# With `-r` the lines of each round are printed, and how they differ directly behind them.
repo system 0 empty
repo available 0 testtags <inline>
#>=Pkg: A 1 1 noarch
#>=Pkg: B 1 1 noarch
system x86_64 rpm system
job install name A
result transaction <inline>
nextjob
job install name B
result transaction <inline>
#>install B-1-1.noarch@available
