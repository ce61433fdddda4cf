# The last line is refused: BadArch.
system other deb b
