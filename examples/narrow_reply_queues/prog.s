; each PE adds 1 to cell 0 and at once to cell 1: replies wait for room
li r1 1
li r2 1
faa r3 r0 r2
faa r4 r1 r2
halt
