proof 1
problem 1 1
rules 0 1
step 0 b0 b1
end
problem 2 1
rules 0 1
step 0 b0 b1
end
problem 2 2
rules 0 2
step 0 b0 b2
end
problem 3 2
rules 0 2
step 0 b0 b2
end
problem 4 1
rules 0 1
step 0 b0 b1
end
