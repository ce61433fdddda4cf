# The last line is refused: BadNumber.
repo a 0.5 other
