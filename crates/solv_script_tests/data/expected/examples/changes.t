# One line of every kind of change.
repo system 0 testtags <inline>
#>=Pkg: bash 5.1 1.fc38 x86_64
#>=Pkg: curl 8.0 1.fc39 x86_64
#>=Pkg: nano 7.2 1.fc39 i686
#>=Pkg: telnet 0.17 88.fc38 x86_64
#>=Pkg: vim 9.1 1.fc39 x86_64
#>=Pkg: zlib 1.2.13 4.fc38 x86_64
repo fedora 0 testtags <inline>
#>=Pkg: bash 5.2 1.fc39 x86_64
#>=Pkg: curl 8.0 1.fc39 x86_64
#>=Pkg: git 2.41.0 2.fc39 x86_64
#>=Req: git-core = 2.41.0-2.fc39
#>=Rec: less
#>=Pkg: git-core 2.41.0 2.fc39 x86_64
#>=Prq: bash >= 5.2
#>=Pkg: less 633 2.fc39 x86_64
#>=Pkg: nano 7.2 1.fc39 x86_64
#>=Pkg: vim 9.0 1.fc38 x86_64
#>=Pkg: zlib-ng 2.1.3 1.fc39 x86_64
#>=Obs: zlib < 1.3
system x86_64 rpm system
job install name git
job install pkg curl-8.0-1.fc39.x86_64@fedora
job install pkg nano-7.2-1.fc39.x86_64@fedora
job install name vim = 9.0-1.fc38
job update name bash
job update name zlib
job erase name telnet
result transaction,problems <inline>
#>change nano-7.2-1.fc39.i686@system nano-7.2-1.fc39.x86_64@fedora
#>downgrade vim-9.1-1.fc39.x86_64@system vim-9.0-1.fc38.x86_64@fedora
#>erase telnet-0.17-88.fc38.x86_64@system
#>install git-2.41.0-2.fc39.x86_64@fedora
#>install git-core-2.41.0-2.fc39.x86_64@fedora
#>install less-633-2.fc39.x86_64@fedora
#>install zlib-ng-2.1.3-1.fc39.x86_64@fedora
#>obsolete zlib-1.2.13-4.fc38.x86_64@system zlib-ng-2.1.3-1.fc39.x86_64@fedora
#>reinstall curl-8.0-1.fc39.x86_64@system curl-8.0-1.fc39.x86_64@fedora
#>upgrade bash-5.1-1.fc38.x86_64@system bash-5.2-1.fc39.x86_64@fedora
