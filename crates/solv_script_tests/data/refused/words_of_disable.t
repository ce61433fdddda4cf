# The last line is refused: BadWords.
disable name A
