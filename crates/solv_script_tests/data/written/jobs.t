# Jobs of each action by their words, flags as several lines leave them, and comparisons, of which the second is false and none is judged.
repo system 0 testtags <inline>
#>=Pkg: A 1 1 noarch
#>=Pkg: B 1 1 noarch
repo available 0 testtags <inline>
#>=Pkg: A 2 1 noarch
#>=Pkg: kernel 1 1 x86_64
#>=Pkg: kernel 2 1 x86_64
evrcmp  1:1   >= 2
system x86_64 rpm system
solverflags allowdowngrade,,!allownamechange , allowarchchange
job   install   name   A   >=   2   [forcebest]
job	erase provides B [cleandeps] 
job update all  packages [forcebest,forcebest]
solverflags !allowdowngrade noinfarchcheck
evrcmp 2 < 1
job distupgrade name A
job lock pkg  A-1-1.noarch@system
job verify all packages
job multiversion name (kernel)
job allowuninstall oneof B-1-1.noarch@system   A-1-1.noarch@system
job favor provides kernel = 1
job disfavor name [kernel] > 1
job userinstalled name B
job  noop 
job noop name A
job install oneof kernel-2-1.x86_64@available kernel-2-1.x86_64@available [forcebest]
evrcmp 1- <> -1
