# The last line is refused: FlagNotHere.
job userinstalled name A [cleandeps]
