# Equal but for the vendor, and equal but for the architecture: neither lets the package stay.
repo system 0 testtags <inline>
#>=Pkg: A 2 1 noarch
#>=Vnd: V
#>=Pkg: B 2 1 noarch
repo available 0 testtags <inline>
#>=Pkg: A 2 1 noarch
#>=Pkg: B 2 1 x86_64
system x86_64 rpm system
job distupgrade all packages
result transaction,problems <inline>
#>change A-2-1.noarch@system A-2-1.noarch@available
#>change B-2-1.noarch@system B-2-1.x86_64@available
