# A block that is not closed is refused at the last line of its file.
repo system 0 empty
repo available 0 testtags <inline>
#>=Pkg: A 1 1 noarch
#>+Req:
#>B
system x86_64 rpm system
