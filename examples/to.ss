c Targets of a table.
p aux sp ss 2
s 3
s 2
