# The last line is refused: FlagNotHere.
job erase other [forcebest]
