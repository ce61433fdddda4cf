# A walk over requirements and recommendations.
repo system 0 testtags <inline>
#>=Pkg: A 1 1 noarch
#>=Pkg: B 1 1 noarch
#>=Req: A
#>=Pkg: C 1 1 noarch
#>=Req: B
#>=Pkg: D 1 1 noarch
#>=Rec: C
system x86_64 rpm system
job erase name D [cleandeps]
result transaction,problems <inline>
#>erase A-1-1.noarch@system
#>erase B-1-1.noarch@system
#>erase C-1-1.noarch@system
#>erase D-1-1.noarch@system
