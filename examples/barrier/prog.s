; the barrier of `ultra lib barrier 1`: nobody passes before all have come. Cell 0 counts arrivals
pid r1
addi r2 r1 8        ; cell 8 + p: rounds that PE p has begun
np r3
add r4 r2 r3        ; cell 8 + N + p: rounds that it has finished
li r5 1
sub r6 r3 r5        ; N - 1: the low bits of a count of arrivals
li r7 0             ; rounds so far
li r8 1
round:
addi r7 r7 1
st r2 r7            ; begins a round
fence
faa r9 r0 r5        ; arrives
fence
and r10 r9 r6
sub r9 r9 r10
add r9 r9 r3        ; what cell 0 has when all have come
wait:
ld r10 r0
fence
slt r11 r10 r9
jnz r11 wait
st r4 r7            ; finishes the round
fence
seq r11 r7 r8
jz r11 round
halt
