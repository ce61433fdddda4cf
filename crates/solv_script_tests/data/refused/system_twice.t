# The last line is refused: DuplicateSystem.
system x86_64 rpm
system other deb b
