# A false comparison of a later round stands in front of all rounds, and lines that are as expected do not undo it.
repo system 0 empty
repo available 0 testtags <inline>
#>=Pkg: A 1 1 noarch
system x86_64 rpm system
job install name A
nextjob
evrcmp 2 < 1
job install name A
result transaction <inline>
#>install A-1-1.noarch@available
