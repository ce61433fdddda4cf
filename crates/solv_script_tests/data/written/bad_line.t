# The last line is refused, and nothing is written: AfterNextjob.
repo system 0 empty
repo available 0 testtags <inline>
#>=Pkg: A 1 1 noarch
system x86_64 rpm system
job install name A
nextjob
disable pkg A-1-1.noarch@available
