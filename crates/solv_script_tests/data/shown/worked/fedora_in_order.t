repo system 0 testtags <inline>
#>=Pkg: filesystem 3.18 6.fc39 x86_64
#>=Pkg: glibc 2.38 7.fc39 x86_64
#>=Prv: libc.so.6()(64bit)
#>=Prq: filesystem
#>=Pkg: bash 5.2.15 5.fc39 x86_64
#>=Prv: /bin/sh
#>=Fls: /usr/bin/bash
#>=Req: libc.so.6()(64bit)
#>=Pkg: openssl-libs 1:3.0.9 2.fc39 x86_64
#>=Prv: libcrypto.so.3()(64bit)
#>=Req: libc.so.6()(64bit)
#>=Pkg: coreutils 9.3 4.fc39 x86_64
#>=Req: libcrypto.so.3()(64bit)
#>=Pkg: zlib 1.2.13 4.fc39 x86_64
#>=Prv: libz.so.1()(64bit)
#>=Req: libc.so.6()(64bit)
repo fedora -99 testtags <inline>
#>=Ver: 3.0
#>=Pkg: git 2.41.0 2.fc39 x86_64
#>+Req:
#>git-core = 2.41.0-2.fc39
#>git-subtree <IF> perl
#>-Req:
#>=Rec: less
#>=Pkg: curl 8.2.1 3.fc39 x86_64
#>=Req: libcurl >= 8.2
#>=Req: libc.so.6()(64bit)
#>=Req: rpmlib(CompressedFileNames) <= 3.0.4-1
#>=Pkg: glibc 2.38 14.fc39 x86_64
#>=Prv: libc.so.6()(64bit)
#>=Prq: filesystem
#>=Req: glibc-common = 2.38-14.fc39
#>=Pkg: glibc-common 2.38 14.fc39 x86_64
#>=Req: glibc = 2.38-14.fc39
#>=Req: /usr/bin/bash
#>=Pkg: openssl-libs 1:3.1.1 4.fc39 x86_64
#>=Prv: libcrypto.so.3()(64bit)
#>=Req: libc.so.6()(64bit)
#>=Req: glibc >= 2.38-10
#>=Rec: ca-certificates
#>=Pkg: ca-certificates 2023.2.60 3.fc39 noarch
#>=Prq: /bin/sh
#>=Prq: coreutils
#>=Pkg: zlib-ng-compat 2.1.3 1.fc39 x86_64
#>=Prv: zlib = 1.2.13
#>=Prv: libz.so.1()(64bit)
#>=Obs: zlib < 1.3
#>=Req: libc.so.6()(64bit)
#>=Pkg: libcurl 8.2.1 3.fc39 i686
#>=Pkg: libcurl 8.2.1 3.fc39 x86_64
#>=Req: libcrypto.so.3()(64bit)
#>=Req: libz.so.1()(64bit)
#>=Pkg: git-core 2.41.0 2.fc39 x86_64
#>=Req: libz.so.1()(64bit)
#>=Pkg: less 608 1.fc39 x86_64
#>=Pkg: less 633 2.fc39 x86_64
#>=Req: libc.so.6()(64bit)
#>=Pkg: bash-completion 2.11 11.fc39 noarch
#>=Req: bash
#>=Sup: bash & git
#>=Pkg: git-subtree 2.41.0 2.fc39 x86_64
system x86_64 rpm system
job install name git
job install name curl
job update name openssl-libs
job update name zlib
result order <inline>
#>cycle glibc-2.38-14.fc39.x86_64@fedora glibc-common-2.38-14.fc39.x86_64@fedora
#>order 0000001 install glibc-2.38-14.fc39.x86_64@fedora
#>order 0000002 install glibc-common-2.38-14.fc39.x86_64@fedora
#>order 0000003 install openssl-libs-1:3.1.1-4.fc39.x86_64@fedora
#>order 0000004 install ca-certificates-2023.2.60-3.fc39.noarch@fedora
#>order 0000005 install zlib-ng-compat-2.1.3-1.fc39.x86_64@fedora
#>order 0000006 install libcurl-8.2.1-3.fc39.x86_64@fedora
#>order 0000007 install curl-8.2.1-3.fc39.x86_64@fedora
#>order 0000008 install git-core-2.41.0-2.fc39.x86_64@fedora
#>order 0000009 install git-2.41.0-2.fc39.x86_64@fedora
#>order 0000010 install less-633-2.fc39.x86_64@fedora
#>order 0000011 install bash-completion-2.11-11.fc39.noarch@fedora
#>order 0000012 erase zlib-1.2.13-4.fc39.x86_64@system
