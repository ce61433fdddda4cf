# The last line is refused: BadDisttype.
system i686 deb b
