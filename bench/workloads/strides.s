; fetch-and-adds, loads and stores in a stride over all cells, 16 a module, several of them on their way
pid r1
np r2
li r3 16
li r4 0
times:
add r5 r5 r2
addi r4 r4 1
sub r6 r3 r4
jnz r6 times
li r2 1
sub r5 r5 r2
li r6 28657
again:
add r1 r1 r6
and r7 r1 r5
faa r8 r7 r2
add r1 r1 r6
and r7 r1 r5
ld r9 r7
add r1 r1 r6
and r7 r1 r5
st r7 r1
jmp again
