; loads, stores, swaps and fetch-and-adds on four cells: pairs of every kind
pid r1
li r2 1
li r3 3
again:
addi r1 r1 1
and r4 r1 r3
faa r5 r4 r2
addi r1 r1 3
and r4 r1 r3
st r4 r1
addi r1 r1 1
and r4 r1 r3
swap r6 r4 r1
addi r1 r1 3
and r4 r1 r3
ld r7 r4
jmp again
