# a problem whose solution is expected otherwise
repo system 0 empty
repo available 1 empty
system x86_64 rpm system
job install name A
result transaction,problems <inline>
#>problem 1 info nothing provides requested A
#>problem 1 solution 1 erase A
