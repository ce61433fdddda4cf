# The last line is refused: TagBeforePackage.
repo a 0 testtags <inline>
#>=Ver: 3.0
#>=Con: (
