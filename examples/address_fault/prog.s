; PE p adds 1 to cell 2p: the memory has only cells 0 and 1, so PE 1 faults
pid r1
add r1 r1 r1        ; twice the PE's number
li r2 1
faa r3 r1 r2
halt
