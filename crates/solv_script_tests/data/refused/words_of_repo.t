# The last line is refused: BadWords.
repo a b
