# The derivation rests on a rule that is not listed.
repo system 0 empty
repo available 0 testtags <inline>
system x86_64 rpm system
job install name nosuch
job install name other
