# The last line is refused: BadWords.
nextjob x
