# The last line is refused: UnknownJobFlag.
job erase other [forcebest,]
