# The same without the namespace.
repo system 0 empty
repo available 0 testtags <inline>
#>=Pkg: lang-de 1 1 noarch
#>=Sup: namespace:language(de)
#>=Pkg: lang-de 2 1 noarch
#>=Sup: namespace:language(de)
system x86_64 rpm system
result transaction,problems <inline>
