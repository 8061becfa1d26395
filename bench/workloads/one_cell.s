; every processing element adds to cell 0, again and again: all requests of a wave combine
li r2 1
again:
faa r3 r0 r2
jmp again
