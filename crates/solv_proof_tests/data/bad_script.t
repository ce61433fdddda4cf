# A bad line of the script is told, and the proof is not read.
repo system 0 empty
repo available 0 testtags <inline>
system x86_64 rpm system
job instal name A
