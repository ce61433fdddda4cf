# The last line is refused: BadOperator.
job install name A B
