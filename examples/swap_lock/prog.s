; each PE adds 1 to cell 8 under a lock: cell 0 is 1 while somebody has it
li r1 1
li r4 8
try:
swap r2 r0 r1       ; takes the lock if it gives 0
fence
jnz r2 try
ld r3 r4            ; under the lock: one load and one store
fence
addi r3 r3 1
st r4 r3
fence
st r0 r2            ; r2 is 0: gives the lock back
fence
halt
