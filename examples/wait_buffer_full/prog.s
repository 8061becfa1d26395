; each PE adds 1 to cell 0 and then to cell 2, both in module 0
li r1 2
li r2 1
faa r3 r0 r2
faa r4 r1 r2
halt
