# Each round has its own `result` line: the first is as expected, the second is not, and the third, which has none, is told.
repo system 0 testtags <inline>
#>=Pkg: B 1 1 noarch
repo available 0 testtags <inline>
#>=Pkg: A 1 1 noarch
system x86_64 rpm system
job install name A
result order,reason <inline>
#>order 0000001 install A-1-1.noarch@available
#>reason A-1-1.noarch@available follows
nextjob
result transaction <inline>
#>install A-1-1.noarch@available
job erase name B
nextjob
job install name A
