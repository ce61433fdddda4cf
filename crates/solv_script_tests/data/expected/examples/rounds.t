# One wish in three rounds. As things are nano cannot come, since it conflicts with the installed vim. The other rounds try what may be given up:
# with the flag vim goes back to an older version, and without the flag and with a second job it goes for good.
repo system 0 testtags <inline>
#>=Pkg: vim 9.1 1.fc39 x86_64
repo fedora 0 testtags <inline>
#>=Pkg: vim 9.0 1.fc38 x86_64
#>=Pkg: nano 7.2 1.fc39 x86_64
#>=Con: vim >= 9.1
system x86_64 rpm system
job install name nano
result transaction,problems <inline>
#>problem 1 info conflicting requests
#>problem 1 info package nano-7.2-1.fc39.x86_64@fedora conflicts with vim >= 9.1 provided by vim-9.1-1.fc39.x86_64@system
#>problem 1 info problem with installed package vim-9.1-1.fc39.x86_64@system
#>problem 1 solution 1 replace vim-9.1-1.fc39.x86_64@system vim-9.0-1.fc38.x86_64@fedora
#>problem 1 solution 2 deljob install name nano
nextjob
solverflags allowdowngrade
job install name nano
result transaction,problems <inline>
#>downgrade vim-9.1-1.fc39.x86_64@system vim-9.0-1.fc38.x86_64@fedora
#>install nano-7.2-1.fc39.x86_64@fedora
nextjob
solverflags !allowdowngrade
job install name nano
job erase name vim
result transaction,problems <inline>
#>erase vim-9.1-1.fc39.x86_64@system
#>install nano-7.2-1.fc39.x86_64@fedora
