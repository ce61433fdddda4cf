proof 1
problem 1 1
rules 0
step 1 0 b0
end
