; each PE takes a ticket from cell 0 and writes its number into the cell of its ticket
li r1 1
faa r2 r0 r1        ; r2 is the ticket
fence
pid r3
addi r4 r2 8
st r4 r3            ; cell 8 + ticket
fence
halt
