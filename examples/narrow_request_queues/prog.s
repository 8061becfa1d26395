; each PE adds 1 to cell 0: with short queues the requests wait in the stage before
li r1 0
li r2 1
faa r3 r1 r2        ; r3 is what cell 0 held before
halt
