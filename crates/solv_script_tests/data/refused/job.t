# The last line is refused: UnknownJob.
job instal name A [other]
