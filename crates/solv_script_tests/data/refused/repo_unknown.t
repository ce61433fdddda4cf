# The last line is refused: UnknownRepo.
system i686 rpm b
