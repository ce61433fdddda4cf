# A supplement by a namespace that the system has.
repo system 0 empty
repo available 0 testtags <inline>
#>=Pkg: lang-de 1 1 noarch
#>=Sup: namespace:language(de)
#>=Pkg: lang-de 2 1 noarch
#>=Sup: namespace:language(de)
system x86_64 rpm system
namespace namespace:language(de) @SYSTEM
result transaction,problems <inline>
#>install lang-de-2-1.noarch@available
