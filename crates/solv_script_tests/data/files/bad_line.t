# A bad line of a repository's file has the name of that file.
repo available 0 testtags bad.repo
