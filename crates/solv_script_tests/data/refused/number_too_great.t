# The last line is refused: BadNumber.
repo a -2147483648 empty
repo b 2147483648 empty
