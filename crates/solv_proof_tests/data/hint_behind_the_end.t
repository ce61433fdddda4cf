# The hints of a step go on behind the clause that is false.
repo system 0 empty
repo available 0 testtags <inline>
system x86_64 rpm system
job install name nosuch
