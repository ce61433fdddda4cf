proof 2
problem 1 1
rules 0
step 0 b0
end
