# The last line is refused: UnknownFlag.
solverflags allowdowngrade !strongrecommends
