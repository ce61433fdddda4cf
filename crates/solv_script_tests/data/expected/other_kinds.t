# a transaction has no lines of problems, so a line that is expected of them is missing
repo system 0 empty
repo available 1 testtags <inline>
#>=Pkg: A 1 1 noarch
system x86_64 rpm system
job install name A
result problems <inline>
#>problem 1 info nothing provides requested A
