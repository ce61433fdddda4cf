# What stands in other files stands in the text itself.
repo system 0 testtags installed.repo
repo there 5 testtags there.repo
repo again 4 testtags ../written/there.repo
system x86_64 rpm system
job update all packages
result transaction,problems there.result
