# One job that names forty packages, of which the lowest number comes first.
repo system 0 empty
repo available 0 testtags <inline>
#>=Pkg: A 1 1 noarch
#>=Pkg: B 2 1 noarch
#>=Pkg: A 1 1 noarch
system x86_64 rpm system
job install oneof B-2-1.noarch@available A-1-1.noarch@available B-2-1.noarch@available A-1-1.noarch@available B-2-1.noarch@available A-1-1.noarch@available B-2-1.noarch@available A-1-1.noarch@available B-2-1.noarch@available A-1-1.noarch@available B-2-1.noarch@available A-1-1.noarch@available B-2-1.noarch@available A-1-1.noarch@available B-2-1.noarch@available A-1-1.noarch@available B-2-1.noarch@available A-1-1.noarch@available B-2-1.noarch@available A-1-1.noarch@available B-2-1.noarch@available A-1-1.noarch@available B-2-1.noarch@available A-1-1.noarch@available B-2-1.noarch@available A-1-1.noarch@available B-2-1.noarch@available A-1-1.noarch@available B-2-1.noarch@available A-1-1.noarch@available B-2-1.noarch@available A-1-1.noarch@available B-2-1.noarch@available A-1-1.noarch@available B-2-1.noarch@available A-1-1.noarch@available B-2-1.noarch@available A-1-1.noarch@available B-2-1.noarch@available A-1-1.noarch@available
result transaction,problems <inline>
#>install A-1-1.noarch@available
