; PE p adds p + 1 to cell 0
pid r2
addi r2 r2 1
faa r3 r0 r2        ; r3 is what cell 0 held before
halt
