proof 1
problem 1 1
rules 0 1 2 3
step -3 0 b1 b2 b0
step 0 s0 b3
end
