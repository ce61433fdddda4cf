# The last line is refused: BadOperator.
evrcmp 1 ! 2
