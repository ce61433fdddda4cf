# The last line is refused: MissingOperand.
job install name A >=
