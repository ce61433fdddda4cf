# with `-r` the lines are printed, and behind them how they differ from those that are expected
repo system 0 empty
repo available 1 testtags <inline>
#>=Pkg: A 1 1 noarch
system x86_64 rpm system
job install name A
result transaction <inline>
#>install B-1-1.noarch@available
