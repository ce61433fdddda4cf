# A name may have a parenthesis without a partner.
repo system 0 empty
repo available 0 testtags <inline>
#>=Pkg: P 1 1 noarch
#>=Req: (f(x )
system x86_64 rpm system
job install name P
result transaction,problems <inline>
#>problem 1 info conflicting requests
#>problem 1 info nothing provides f(x needed by P-1-1.noarch@available
#>problem 1 solution 1 deljob install name P
