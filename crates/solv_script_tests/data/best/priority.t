# The best of a name has the greatest priority, whatever its version.
repo main 5 testtags <inline>
#>=Pkg: A 2 1 noarch
repo other 1 testtags <inline>
#>=Pkg: A 3 1 noarch
system x86_64 rpm
job install name A [forcebest]
result transaction,problems <inline>
#>install A-2-1.noarch@main
