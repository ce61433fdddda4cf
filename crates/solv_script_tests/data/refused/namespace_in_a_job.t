# The last line is refused: OperatorNotHere.
job install name namespace:language(de)
