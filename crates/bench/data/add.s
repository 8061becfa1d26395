li r2 1
again:
faa r3 r0 r2
jmp again
