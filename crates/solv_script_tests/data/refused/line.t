# The last line is refused: UnknownLine.
repo a 0 empty

# a comment
feature x
