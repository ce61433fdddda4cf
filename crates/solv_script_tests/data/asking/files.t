# A file meets a requirement, and a requirement that is due before the installation is one too.
repo system 0 empty
repo available 0 testtags <inline>
#>=Pkg: P 1 1 noarch
#>=Prq: /bin/sh
#>=Pkg: sh 1 1 noarch
#>=Fls: /bin/sh
system x86_64 rpm system
job install name P
result transaction,problems <inline>
#>install P-1-1.noarch@available
#>install sh-1-1.noarch@available
