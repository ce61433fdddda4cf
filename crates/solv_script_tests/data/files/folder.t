# A folder in place of a file: it opens, and cannot be read.
repo system 0 empty
repo folder 0 testtags .
system x86_64 rpm system
