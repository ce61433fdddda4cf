# The last line is refused: BadWords.
evrcmp 1 2
