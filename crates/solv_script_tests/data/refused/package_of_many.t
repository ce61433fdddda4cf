# One of forty names of packages is no package's.
repo system 0 empty
repo available 0 testtags <inline>
#>=Pkg: A 1 1 noarch
#>=Pkg: B 2 1 noarch
#>=Pkg: A 1 1 noarch
system x86_64 rpm system
job install oneof B-2-1.noarch@available A-1-1.noarch@available B-2-1.noarch@available A-1-1.noarch@available B-2-1.noarch@available A-1-1.noarch@available B-2-1.noarch@available A-1-1.noarch@available B-2-1.noarch@available A-1-1.noarch@available B-2-1.noarch@available A-1-1.noarch@available B-2-1.noarch@available A-1-1.noarch@available B-2-1.noarch@available A-1-1.noarch@available B-2-1.noarch@available A-1-1.noarch@available B-2-1.noarch@available A-1-1.noarch@available B-2-1.noarch@available A-1-1.noarch@available B-2-1.noarch@available A-1-1.noarch@available B-2-1.noarch@available A-1-1.noarch@available B-2-1.noarch@available A-1-1.noarch@available B-2-1.noarch@available A-1-1.noarch@available B-2-1.noarch@available A-1-1.noarch@available B-2-1.noarch@available A-1-1.noarch@available B-2-1.noarch@available A-1-1.noarch@available B-2-1.noarch@available A-1-1.noarch@available B-2-1.noarch@available A-1-1.noarch@available A-1-2.noarch@available
