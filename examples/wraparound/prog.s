; each PE adds 2^32 - 1 to cell 0, so it subtracts 1
li r1 0
li r2 4294967295
faa r3 r1 r2        ; r3 is what cell 0 held before
halt
