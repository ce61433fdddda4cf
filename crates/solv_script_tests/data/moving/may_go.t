# A package that may go has no rule that moves it, but it is still asked for, and what it moves to comes first.
repo system 0 testtags <inline>
#>=Pkg: A 2 1 noarch
repo available 0 testtags <inline>
#>=Pkg: A 1 1 noarch
system x86_64 rpm system
solverflags allowuninstall
job distupgrade all packages
result transaction,problems <inline>
#>downgrade A-2-1.noarch@system A-1-1.noarch@available
