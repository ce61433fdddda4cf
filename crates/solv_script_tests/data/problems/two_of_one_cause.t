# Two jobs fail for one cause: two problems, which share the rules that may not be dropped.
repo system 0 empty
repo available 0 testtags <inline>
#>=Pkg: M 1 1 noarch
#>=Prv: x
#>=Req: missing
system x86_64 rpm system
job install name M
job install provides x
result transaction,problems <inline>
#>problem 1 info conflicting requests
#>problem 1 info nothing provides missing needed by M-1-1.noarch@available
#>problem 1 solution 1 deljob install name M
#>problem 2 info conflicting requests
#>problem 2 info nothing provides missing needed by M-1-1.noarch@available
#>problem 2 solution 1 deljob install provides x
