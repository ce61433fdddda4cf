repo @System -99 testtags @System.repo
repo local -99 testtags local.repo
repo media 0 empty
system x86_64 rpm @System
solverflags allowvendorchange !allowdowngrade
job update oneof editor-1-1.noarch@@System editor-2-1.noarch@local
job install name viewer [forcebest]
job multiversion provides kernel
result transaction,problems solver.result
