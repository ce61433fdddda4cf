# The last line is refused: MixedOperators.
job install name A & B | C
