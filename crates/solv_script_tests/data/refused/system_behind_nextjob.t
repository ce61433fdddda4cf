# The last line is refused: AfterNextjob.
repo a 0 empty
nextjob
system x86_64 rpm a
