# Three rounds without jobs, the last one behind the last line: each has an answer without a line.
repo system 0 testtags <inline>
#>=Pkg: A 1 1 noarch
system x86_64 rpm system
nextjob
nextjob
