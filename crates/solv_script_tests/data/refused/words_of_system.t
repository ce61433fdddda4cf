# The last line is refused: BadWords.
system x86_64
