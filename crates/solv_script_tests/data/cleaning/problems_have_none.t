# Problems have no such lines.
repo system 0 testtags <inline>
#>=Pkg: A 1 1 noarch
system x86_64 rpm system
job install name nosuch
result problems,unneeded,userinstalled <inline>
#>problem 1 info nothing provides requested nosuch
#>problem 1 solution 1 deljob install name nosuch
