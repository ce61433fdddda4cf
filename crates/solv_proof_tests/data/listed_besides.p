proof 1
problem 1 1
rules 0 1 2
step 0 b2
end
