proof 1
problem 1 1
rules 0 1 5
step 0 b1 b5 b0
end
problem 1 2
rules 3
step 0 b3
end
