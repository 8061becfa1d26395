; every processing element computes in its registers and asks for no memory
pid r1
li r2 3
again:
add r1 r1 r2
sub r3 r1 r2
slt r4 r3 r1
jmp again
