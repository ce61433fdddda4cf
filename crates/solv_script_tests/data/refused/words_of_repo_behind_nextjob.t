# The last line is refused: AfterNextjob, which is tried before BadWords.
nextjob
repo a
