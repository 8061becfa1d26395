; the gate of `ultra lib gate 2 1`: at most two are inside. Cell 0 counts who is inside or tries
pid r1
addi r1 r1 8        ; cell 8 + p: 1 while PE p is inside
li r3 1
li r4 2             ; the bound
li r5 1             ; rounds left
li r8 4294967295    ; to add this is to subtract 1
again:
ld r6 r0            ; is there room?
fence
slt r7 r6 r4
jz r7 again
faa r6 r0 r3        ; tries
fence
slt r7 r6 r4        ; the old value says whether there still was room
jnz r7 inside
faa r6 r0 r8        ; too late: takes its 1 back
fence
jmp again
inside:
st r1 r3
fence
st r1 r0
fence
faa r6 r0 r8        ; leaves
fence
sub r5 r5 r3
jnz r5 again
halt
