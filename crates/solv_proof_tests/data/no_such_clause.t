# A hint names a clause that the book does not have.
repo system 0 empty
repo available 0 testtags <inline>
system x86_64 rpm system
job install name nosuch
