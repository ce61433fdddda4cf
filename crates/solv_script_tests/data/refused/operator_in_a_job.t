# The last line is refused: OperatorNotHere.
job install provides A & B
