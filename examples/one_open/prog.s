; each PE adds 1 to cell 0 and then to cell 1: with one open cell the second waits
li r1 1
li r2 1
faa r3 r0 r2
faa r4 r1 r2
halt
