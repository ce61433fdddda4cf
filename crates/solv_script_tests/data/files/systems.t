# The last line has no line feed; behind a comment a line that begins with #> is one too.
repo system 0 empty
repo available 0 testtags <inline>
#>=Pkg: A 1 1 x86_64
#>=Pkg: A 1 1 i686
#>=Pkg: A 1 1 aarch64
# a comment
#>=Pkg: A 2 1 aarch64
system aarch64 rpm
result transaction,problems <inline>
#>install A-1-1.aarch64@available
job install name A