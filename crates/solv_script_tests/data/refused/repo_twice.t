# The last line is refused: DuplicateRepo.
repo a 0 empty
repo a 0 testtags b.gz
