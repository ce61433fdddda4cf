# A file that is not there.
repo system 0 empty
repo there 0 testtags a.repo
system x86_64 rpm system
