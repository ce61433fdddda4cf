# Lines that end with a carriage return.
repo system 0 empty
repo available 0 testtags <inline>
#>=Pkg: A 1 1 noarch
#>=Req: B
#>=Pkg: B 1 1 noarch
 	
system x86_64 rpm system
job install name A
result transaction,problems <inline>
#>install A-1-1.noarch@available
#>install B-1-1.noarch@available
