# The last line is refused: UnknownPackage.
disable pkg @SYSTEM
