# A package needs what the system has and what it provides itself.
repo system 0 empty
repo available 0 testtags <inline>
#>=Pkg: only 1 1 noarch
#>=Req: rpmlib(PayloadIsXz) <= 5.2-1
#>=Req: only
system x86_64 rpm system
job install name only
result transaction,problems <inline>
#>install only-1-1.noarch@available
