# The last line is refused: FlagNotHere.
job install name A [cleandeps]
