# Dependencies in one spelling: signs for rpm's words, one space between words, and parentheses where they are needed alone.
repo system 0 empty
repo available 0 testtags <inline>
#>=Pkg: P 1 1 noarch
#>=Prv: (cap  <=  3)
#>=Prv: lib.so.6()(64bit)
#>=Req: (f(x )
#>=Req: (A & f(x ) | B
#>=Req: A and (B or g = 1(2 )
#>=Req: (A & namespace:n((x) ) | B
#>=Req: A if (B else f(x )
#>=Req: and and or
#>=Req: if if if
#>=Req: ((A))
#>=Req: A	and  B and C
#>=Req: A & (B & C)
#>=Req: (A & B) and C
#>=Req: D if A else E
#>=Req: D <IF> (A <ELSE> E)
#>=Req: (A or B) if (C and D)
#>=Req: A if B else (C if D)
#>=Req: ((a with b) without c)
#>=Req: a - (b or c)
#>=Req: perl(Foo) >= 2:1.0-3
#>=Req: v <> 1
#>=Con: old unless new
#>=Con: X unless (Y else Z)
#>=Con: (a unless b) and c
#>=Con: unless
#>=Obs: ( o )
#>=Sup: (A or B) and namespace:language(de)
system x86_64 rpm system
job install provides  (f(x  )
