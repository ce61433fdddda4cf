# The last line is refused: UnknownJob.
repo system 0 empty
repo available 0 testtags <inline>
#>=Pkg: A 1 1 noarch
system x86_64 rpm system

# a comment
job instal name A
