# The repository with the greater priority wins, then the greater version: vim 9.1 of `updates` although `extra` has 9.2,
# nano 8.2 above 8.2~rc1 and although `extra` has epoch 1, and of mc the version with `^git1`, which is above the one without.
repo system 0 empty
repo updates 10 testtags <inline>
#>=Pkg: vim 9.0 3.fc41 noarch
#>=Pkg: vim 9.1 1.fc41 noarch
#>=Pkg: nano 8.2~rc1 1.fc41 noarch
#>=Pkg: nano 8.2 1.fc41 noarch
#>=Pkg: nano 8.1 4.fc41 noarch
#>=Pkg: less 661 2.fc41 noarch
repo extra 0 testtags <inline>
#>=Pkg: vim 9.2 1.fc42 noarch
#>=Pkg: nano 1:7.0 1.fc42 noarch
#>=Pkg: mc 4.8.32 1.fc42 noarch
#>=Pkg: mc 4.8.32^git1 1.fc42 noarch
#>=Pkg: mc 4.8.31 9.fc42 noarch
#>=Pkg: tree 2.1.3 1.fc42 noarch
system x86_64 rpm system
job install name vim
job install name nano
job install name mc
result transaction,problems <inline>
#>install mc-4.8.32^git1-1.fc42.noarch@extra
#>install nano-8.2-1.fc41.noarch@updates
#>install vim-9.1-1.fc41.noarch@updates
