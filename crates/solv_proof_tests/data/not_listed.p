proof 1
problem 1 1
rules 1
step 0 b0
end
