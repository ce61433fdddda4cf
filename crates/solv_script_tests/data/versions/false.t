# Comparisons that are false are told, in the order of the script.
evrcmp 2-1 < 1-9
evrcmp 1.0~rc1 > 1.0
evrcmp 1 < 2
evrcmp 1.05 <> 1.5
result transaction,problems <inline>
