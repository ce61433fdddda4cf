# The last line is refused: BadNamespace.
namespace n P
