; Each PE begins after a pause of 0 to 31 cycles, which is drawn from its number and from $seed.
pid r1
addi r1 r1 1
li r2 $seed
li r5 24
li r6 1
; 24 times r1 becomes 9 r1, plus its high bits, plus the seed
start_draw:
add r3 r1 r1
add r3 r3 r3
add r3 r3 r3
add r1 r1 r3
shr r4 r1 7
add r1 r1 r4
add r1 r1 r2
sub r5 r5 r6
jnz r5 start_draw
; a pause of 1 or 0 cycles by one bit, and of 2 to 32 by four others
shr r1 r1 11
and r4 r1 r6
jz r4 start_even
addi r4 r4 0
start_even:
shr r1 r1 1
li r4 15
and r1 r1 r4
addi r1 r1 1
start_pause:
sub r1 r1 r6
jnz r1 start_pause
; registers are 0 again
li r2 0
li r3 0
li r4 0
li r6 0
