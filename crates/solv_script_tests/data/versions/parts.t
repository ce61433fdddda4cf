# The parts of a version: digits before a colon are the epoch, what follows the last dash is the release.
evrcmp 1:2.0-3 = 1:2.0-3.
evrcmp a:1 < 1
evrcmp :1 = 1
evrcmp 7: > 6:9
evrcmp 7: < 7:0
evrcmp 12:3:4-5 = 12:3.4-5
evrcmp 1-2:3 = 1-2.3
evrcmp 1-2:3 < 2
evrcmp a-b-c = a.b-c
evrcmp a-b-c > a-b.c
result transaction,problems <inline>
