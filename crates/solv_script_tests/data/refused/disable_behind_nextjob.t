# The last line is refused: AfterNextjob.
repo a 0 testtags <inline>
#>=Pkg: A 1 1 noarch
nextjob
job install name A
nextjob
disable pkg A-1-1.noarch@a
