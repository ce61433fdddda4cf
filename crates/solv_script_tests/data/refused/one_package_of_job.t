# The last line is refused: UnknownPackage.
repo a 0 testtags <inline>
#>=Pkg: A 1 1 noarch
#>=Pkg: B 1 1 noarch
job install pkg A
