# A repository in a file of its own, whose name is taken from the script's folder.
repo system 0 empty
repo there 0 testtags there.repo
repo again -5 testtags ../files/there.repo
system x86_64 rpm system
job install name A
job install name B
result transaction,problems <inline>
#>install A-1-1.noarch@there
#>install B-1-1.noarch@there
