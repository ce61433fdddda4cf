# An update may change the name, and the architecture from or to noarch.
repo system 0 testtags <inline>
#>=Pkg: v 1 1 noarch
#>=Vnd: one
#>=Pkg: r 1 1 i686
#>=Pkg: n 1 1 noarch
#>=Pkg: s 1 1 noarch
repo available 0 testtags <inline>
#>=Pkg: v 2 1 noarch
#>=Vnd: two
#>=Pkg: r 2 1 x86_64
#>=Pkg: m 1 1 noarch
#>=Obs: n
#>=Pkg: s 2 1 x86_64
system x86_64 rpm system
job update all packages
result transaction,problems <inline>
#>install m-1-1.noarch@available
#>obsolete n-1-1.noarch@system m-1-1.noarch@available
#>upgrade s-1-1.noarch@system s-2-1.x86_64@available
