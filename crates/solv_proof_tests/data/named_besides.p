proof 1
problem 1 1
rules 0
step 1048575 0 b0
step 0 b0
end
