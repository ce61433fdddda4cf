# The last line is refused: BadWords.
repo a x foo b c
