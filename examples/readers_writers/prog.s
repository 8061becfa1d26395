; `ultra lib rw 2 1`: PEs 0 and 1 write, the others read; a writer is inside alone.
; In cell 0 a reader counts 1 and a writer 65536
pid r1
addi r2 r1 8        ; cell 8 + p: 1 while reader p is inside, 2 while writer p is
li r3 1
li r4 65536
li r5 1             ; rounds left
li r6 2             ; writers
li r10 4294967295   ; to add this is to subtract 1
li r11 2
sub r12 r0 r4       ; and this subtracts 65536
slt r7 r1 r6
jnz r7 write
read:
faa r8 r0 r3
fence
slt r9 r8 r4        ; no writer came before
jnz r9 reading
faa r8 r0 r10       ; else it takes its 1 back and tries again
fence
jmp read
reading:
st r2 r3
fence
st r2 r0
fence
faa r8 r0 r10       ; leaves
fence
sub r5 r5 r3
jnz r5 read
halt
write:
faa r8 r0 r4
fence
jz r8 writing       ; nobody came before
faa r8 r0 r12       ; else it takes its 65536 back and tries again
fence
jmp write
writing:
st r2 r11
fence
st r2 r0
fence
faa r8 r0 r12       ; leaves
fence
sub r5 r5 r3
jnz r5 write
halt
