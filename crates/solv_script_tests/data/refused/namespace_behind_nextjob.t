# The last line is refused: AfterNextjob.
nextjob
namespace namespace:language(de) @SYSTEM
