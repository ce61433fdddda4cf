# The last line is refused: UnclosedParenthesis.
job install name (A
