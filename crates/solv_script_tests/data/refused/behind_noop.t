# The last line is refused: UnknownLine.
repo a 0 testtags <inline>
#>=Pkg: A 1 1 noarch
#>=Pkg: B 1 1 noarch
job noop
#>=Pkg:
foo