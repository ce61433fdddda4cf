proof 1
problem 1 1
rules 0 1
step 0 b7
end
