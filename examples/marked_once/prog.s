; PE 0 adds 1 to cell 0. PE p, for p from 1 on, loads cell p + 1 and then adds p + 1 to cell 0
pid r1
addi r5 r1 1
jz r1 a             ; PE 0 leaves the load out
ld r6 r5
a:
faa r7 r3 r5        ; r3 is 0
halt
