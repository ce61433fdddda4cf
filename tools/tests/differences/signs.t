# The same in signs.
repo r 0 testtags <inline>
#>=Pkg: app 1 1 noarch
#>=Req: (b | c)
#>=Pkg: b 1 1 noarch
#>=Pkg: c 1 1 noarch
#>=Pkg: f 1 1 noarch
#>=Req: (nothing | nowhere)
system x86_64 rpm
job install name app
result transaction,problems <inline>
#>install app-1-1.noarch@r
#>install b-1-1.noarch@r
nextjob
job install name f
result transaction,problems <inline>
#>problem 1 info conflicting requests
#>problem 1 info nothing provides nothing | nowhere needed by f-1-1.noarch@r
#>problem 1 solution 1 deljob install name f
