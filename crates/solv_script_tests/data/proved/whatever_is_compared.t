# Nothing is told of a comparison that is false, nor of lines that are not as expected.
repo system 0 empty
repo available 0 testtags <inline>
system x86_64 rpm system
evrcmp 2 < 1
job install name nosuch
result transaction,problems <inline>
#>install A-1-1.noarch@available
