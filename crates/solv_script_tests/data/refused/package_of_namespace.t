# The last line is refused: UnknownPackage.
namespace namespace:a(b) P
