# The last line is refused: OperatorNotHere.
repo available 0 testtags <inline>
#>=Pkg: P 1 1 noarch
#>=Con: A if B
