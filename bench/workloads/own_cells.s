; every processing element adds to a cell of its own: nothing combines
pid r1
li r2 1
again:
faa r3 r1 r2
jmp again
