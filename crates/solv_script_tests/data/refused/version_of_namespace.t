# The last line is refused: BadOperator.
job install name namespace:language(de) = 1
