# blanks at the ends of expected lines, empty lines and repeated ones make no difference
repo system 0 empty
repo available 1 testtags <inline>
#>=Pkg: A 1 1 noarch
system x86_64 rpm system
job install name A
result transaction <inline>
#>   install A-1-1.noarch@available
#>
#>install A-1-1.noarch@available	 
