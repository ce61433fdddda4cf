# Rounds with flags, jobs, kinds and expected lines of their own, and a last one without a line. The comparisons stand in front of all.
repo system 0 empty
repo available 0 testtags <inline>
#>=Pkg: A 1 1 noarch
system x86_64 rpm
result unneeded,problems,transaction <inline>
#>  repo a 0 empty	
#>
#>#>
#> #> install name A 
#>nextjob
job install name A
solverflags allowuninstall
evrcmp 1 = 1
nextjob
solverflags !allowuninstall,allowvendorchange
# a comment

job erase name A
result reason,order,reason <inline>
  nextjob
evrcmp 1 < 1
result userinstalled,transaction,userinstalled <inline>
# a comment, and so is the next line
#>install A-1-1.noarch@available
solverflags ignorerecommended
job install name A
job install name A
nextjob
