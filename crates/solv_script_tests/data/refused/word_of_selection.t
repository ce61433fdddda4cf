# The last line is refused: UnknownSelection.
job install foo [forcebest]
