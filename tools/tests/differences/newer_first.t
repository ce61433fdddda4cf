# The same, and the updates have the higher priority.
repo release 0 testtags <inline>
#>=Pkg: python 2.6b3 1 noarch
#>=Prv: libpython2.6.so
#>=Pkg: app 1 1 noarch
#>=Req: libpython2.6.so
repo updates 1 testtags <inline>
#>=Pkg: libpython2_6 2.6.0 1 noarch
#>=Prv: libpython2.6.so
#>=Pkg: python 2.6.0 1 noarch
system x86_64 rpm
job install name app
result transaction,problems <inline>
#>install app-1-1.noarch@release
#>install libpython2_6-2.6.0-1.noarch@updates
