# The first of two bad lines is told, though a file is missing behind it.
foo
repo a 0 testtags no.repo
bar
