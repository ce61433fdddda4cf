proof 1
problem 1 1
rules 0
end
