proof 1
problem 1 1
rules 0 1
step 0 b0 b1
end
problem 3 1
rules 1
step 0 b1
end
problem 3 2
rules 0 2
step 0 b0 b2
end
