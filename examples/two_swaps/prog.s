; PE p swaps p + 7 into cell 0
pid r1
addi r2 r1 7
swap r3 r0 r2       ; r3 is what cell 0 held before
halt
