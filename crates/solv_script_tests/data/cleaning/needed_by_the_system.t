# The system needs what supplements a namespace that it has.
repo system 0 testtags <inline>
#>=Pkg: A 1 1 noarch
#>=Sup: namespace:language(de)
#>=Pkg: B 1 1 noarch
#>=Req: A
system x86_64 rpm system
namespace namespace:language(de) @SYSTEM
job erase name B [cleandeps]
result transaction,problems,userinstalled,unneeded <inline>
#>erase B-1-1.noarch@system
