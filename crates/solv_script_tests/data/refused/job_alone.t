# The last line is refused: BadWords.
job
