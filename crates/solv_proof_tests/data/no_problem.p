proof 1
