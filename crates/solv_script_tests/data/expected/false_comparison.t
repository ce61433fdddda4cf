# the lines are as expected, and a comparison is false
repo system 0 empty
system x86_64 rpm system
evrcmp 1-1 = 1-2
result transaction <inline>
