# Each kind of change. Of two packages that come for one the newer counts, of two of one version the first.
repo system 0 testtags <inline>
#>=Pkg: A 1 1 noarch
#>=Pkg: B 2 1 noarch
#>=Pkg: C 1 1 noarch
#>=Pkg: D 1 1 noarch
#>=Pkg: E 1 1 noarch
#>=Pkg: F 1 1 noarch
#>=Pkg: K 1 1 noarch
repo available 0 testtags <inline>
#>=Pkg: A 1.5 1 noarch
#>=Pkg: A 2 1 noarch
#>=Pkg: A 02 1 noarch
#>=Pkg: B 1 1 noarch
#>=Pkg: C 1 1 noarch
#>=Pkg: D 1 1 x86_64
#>=Pkg: M 1 1 noarch
#>=Obs: E
#>=Pkg: N 1 1 noarch
#>=Obs: E
system x86_64 rpm system
job multiversion name A
job erase pkg A-1-1.noarch@system
job install pkg A-1.5-1.noarch@available
job install pkg A-2-1.noarch@available
job install pkg A-02-1.noarch@available
job install name B = 1
job install pkg C-1-1.noarch@available
job install pkg D-1-1.x86_64@available
job install name M
job install name N
job erase name F
result transaction,problems <inline>
#>change D-1-1.noarch@system D-1-1.x86_64@available
#>downgrade B-2-1.noarch@system B-1-1.noarch@available
#>erase F-1-1.noarch@system
#>install A-02-1.noarch@available
#>install A-1.5-1.noarch@available
#>install M-1-1.noarch@available
#>install N-1-1.noarch@available
#>obsolete E-1-1.noarch@system M-1-1.noarch@available
#>reinstall C-1-1.noarch@system C-1-1.noarch@available
#>upgrade A-1-1.noarch@system A-2-1.noarch@available
