# What an installed package calls for by a supplement comes with any job.
repo system 0 testtags <inline>
#>=Pkg: app 1 1 noarch
#>=Rec: docs
repo r 0 testtags <inline>
#>=Pkg: docs 1 1 noarch
#>=Pkg: lang 1 1 noarch
#>=Sup: app
#>=Pkg: tool 1 1 noarch
system x86_64 rpm system
job install name tool
result transaction,problems <inline>
#>install lang-1-1.noarch@r
#>install tool-1-1.noarch@r
# libsolv: install tool-1-1.noarch@r
nextjob
job install name tool
job disfavor name lang
result transaction,problems <inline>
#>install lang-1-1.noarch@r
#>install tool-1-1.noarch@r
# libsolv: install tool-1-1.noarch@r
nextjob
job install name tool
job lock name lang
result transaction,problems <inline>
#>install tool-1-1.noarch@r
nextjob
solverflags ignorerecommended
job install name tool
result transaction,problems <inline>
#>install tool-1-1.noarch@r
