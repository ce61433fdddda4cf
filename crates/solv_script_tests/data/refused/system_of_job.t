# The last line is refused: SystemInJob.
repo a 0 testtags <inline>
#>=Pkg: A 1 1 noarch
job install oneof A-1-1.noarch@a @SYSTEM
