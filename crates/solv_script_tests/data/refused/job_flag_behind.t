# The last line is refused: UnknownJobFlag.
job erase name A [cleandeps,x]
