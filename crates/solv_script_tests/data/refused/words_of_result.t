# The last line is refused: BadWords.
result foo
