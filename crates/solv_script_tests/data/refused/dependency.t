# The last line is refused: BadOperator.
repo a 0 testtags <inline>
#>=Pkg: A 1 1 noarch
#>+Sup:
#>b
#>b )
