# The last line is refused: BadPackageLine.
repo a 0 testtags <inline>
#>=Pkg: A 1 1 noarch
#>
#>=Pkg: A 1 noarch
