# The words of a job have one space between them, and a chain has no parentheses at its front.
repo system 0 empty
repo available 0 testtags <inline>
#>=Ver: 3.0
#>=Pkg: A 1 1 noarch
#>=Req: (B and C) & D
system x86_64 rpm system
job  install name A
