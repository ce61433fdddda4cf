# The last line is refused: UnknownLine.

#
foo
