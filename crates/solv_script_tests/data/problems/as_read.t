# The example of README.
repo system 0 testtags <inline>
#>=Pkg: libvim 9.1 1.fc39 x86_64
#>=Pkg: vim 9.1 1.fc39 x86_64
#>=Req: libvim
repo fedora 0 testtags <inline>
#>=Pkg: nano 7.2 1.fc39 x86_64
system x86_64 rpm system
job install name nosuch
job install name nano
job erase name libvim
result transaction,problems <inline>
#>problem 1 info conflicting requests
#>problem 1 info package vim-9.1-1.fc39.x86_64@system requires libvim, but none of the providers can be installed
#>problem 1 info problem with installed package vim-9.1-1.fc39.x86_64@system
#>problem 1 solution 1 erase vim-9.1-1.fc39.x86_64@system
#>problem 1 solution 2 deljob erase name libvim
#>problem 2 info nothing provides requested nosuch
#>problem 2 solution 1 deljob install name nosuch
