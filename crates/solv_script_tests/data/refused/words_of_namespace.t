# The last line is refused: BadWords.
namespace a
