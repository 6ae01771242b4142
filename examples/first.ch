p ch 3 2
o 1
o 2
o 3
l 1 2 4 1 0
l 2 3 5 1 0
