proof 1
problem 1 1
rules 0 1
step 0 b0 b1
end
problem 1 2
rules 2
step 0 b2
end
