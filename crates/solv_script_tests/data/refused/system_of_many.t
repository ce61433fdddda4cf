# One of forty names of packages is the system's.
repo system 0 empty
repo available 0 testtags <inline>
#>=Pkg: A 1 1 noarch
#>=Pkg: B 2 1 noarch
#>=Pkg: A 1 1 noarch
system x86_64 rpm system
job install oneof @SYSTEM B-2-1.noarch@available A-1-1.noarch@available B-2-1.noarch@available A-1-1.noarch@available B-2-1.noarch@available A-1-1.noarch@available B-2-1.noarch@available A-1-1.noarch@available B-2-1.noarch@available A-1-1.noarch@available B-2-1.noarch@available A-1-1.noarch@available B-2-1.noarch@available A-1-1.noarch@available B-2-1.noarch@available A-1-1.noarch@available B-2-1.noarch@available A-1-1.noarch@available B-2-1.noarch@available A-1-1.noarch@available B-2-1.noarch@available A-1-1.noarch@available B-2-1.noarch@available A-1-1.noarch@available B-2-1.noarch@available A-1-1.noarch@available B-2-1.noarch@available A-1-1.noarch@available B-2-1.noarch@available A-1-1.noarch@available B-2-1.noarch@available A-1-1.noarch@available B-2-1.noarch@available A-1-1.noarch@available B-2-1.noarch@available A-1-1.noarch@available B-2-1.noarch@available A-1-1.noarch@available B-2-1.noarch@available A-1-1.noarch@available
