# Lines of one namespace add up, in their order and with repeats. It stands where its first line stood; comments and blank lines are gone.

repo system 0 testtags <inline>
#>=Pkg: A 1 1 noarch
#>=Pkg: B 1 1 noarch

#>=Pkg: none 1 1 noarch
 	
#
namespace namespace:language(fr) B-1-1.noarch@system
namespace namespace:language(de) @SYSTEM A-1-1.noarch@system
namespace  namespace:language(fr)	@SYSTEM  B-1-1.noarch@system
repo available 0 testtags <inline>
#>=Pkg: lang-de 1 1 noarch
#>=Sup: namespace:language(de)
# a comment
#>=Sup: none
namespace namespace:modalias(x) lang-de-1-1.noarch@available
namespace namespace:language(de) A-1-1.noarch@system
disable pkg B-1-1.noarch@system
system x86_64 rpm system
