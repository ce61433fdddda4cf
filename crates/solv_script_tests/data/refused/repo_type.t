# The last line is refused: BadRepoType.
repo a 0 empty
repo a 0 other x
