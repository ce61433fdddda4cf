# A listed place has no rule, which is said before the steps are looked at.
repo system 0 empty
repo available 0 testtags <inline>
system x86_64 rpm system
job install name nosuch
