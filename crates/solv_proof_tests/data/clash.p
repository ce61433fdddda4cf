proof 1
problem 1 1
rules 0 1 2 3
step 0 b1 b2 b3 b0
end
