# Of two providers the one that stands first comes.
repo a 0 testtags <inline>
#>=Pkg: branding-x 2.16 1 noarch
#>=Prv: branding = 2.16
#>=Pkg: branding-y 2.18 1 noarch
#>=Prv: branding = 2.18
#>=Pkg: app 1 1 noarch
#>=Req: branding
system x86_64 rpm
job install name app
result transaction,problems <inline>
#>install app-1-1.noarch@a
#>install branding-x-2.16-1.noarch@a
# libsolv: install app-1-1.noarch@a
# libsolv: install branding-y-2.18-1.noarch@a
nextjob
job favor name branding-y
job install name app
result transaction,problems <inline>
#>install app-1-1.noarch@a
#>install branding-y-2.18-1.noarch@a
nextjob
job install name app
job install provides branding >= 2.18
result transaction,problems <inline>
#>install app-1-1.noarch@a
#>install branding-y-2.18-1.noarch@a
