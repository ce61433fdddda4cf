# What is to be erased is not moved.
repo system 0 testtags <inline>
#>=Pkg: A 2 1 noarch
repo available 0 testtags <inline>
#>=Pkg: A 1 1 noarch
system x86_64 rpm system
job erase pkg A-2-1.noarch@system
job distupgrade all packages
result transaction,problems <inline>
#>erase A-2-1.noarch@system
