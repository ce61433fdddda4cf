# 1.00-1 compares equal to 1.0-1.
repo system 0 testtags <inline>
#>=Pkg: A 1.0 1 noarch
repo available 0 testtags <inline>
#>=Pkg: A 1.00 1 noarch
system x86_64 rpm system
job distupgrade all packages
result transaction,problems <inline>
