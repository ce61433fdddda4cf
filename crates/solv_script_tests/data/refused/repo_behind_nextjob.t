# The last line is refused: AfterNextjob, which is tried before DuplicateRepo.
repo a 0 empty
nextjob
repo a 0 empty
