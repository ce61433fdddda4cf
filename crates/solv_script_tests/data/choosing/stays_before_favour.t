# An installed package that is not marked for update stays, disfavoured or not.
repo system 0 testtags <inline>
#>=Pkg: A 1 1 noarch
repo available 0 testtags <inline>
#>=Pkg: A 2 1 noarch
system x86_64 rpm system
job disfavor pkg A-1-1.noarch@system
result transaction,problems <inline>
