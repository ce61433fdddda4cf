# The last line is refused: DuplicateResult. The second round has two `result` lines, the first round one.
repo a 0 empty
result transaction <inline>
nextjob
result problems <inline>
result problems <inline>
