# A compressed file is not read.
repo available 0 testtags a.repo.gz
