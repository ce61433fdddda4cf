# A compressed file is not read, nor does its line need a line feed.
repo a 0 testtags b.lzma