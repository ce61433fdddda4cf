# Eleven problems; their lines are sorted by bytes.
repo system 0 empty
repo available 0 empty
system x86_64 rpm system
job install name n1
job install name n2
job install name n3
job install name n4
job install name n5
job install name n6
job install name n7
job install name n8
job install name n9
job install name n10
job install name n11
