; PE 0 adds 3 to cell 0, and PE 1 stores 10 in it: PE 1's request is old
li r2 3
li r4 10
pid r1
jnz r1 w            ; PE 1 goes to w
faa r3 r0 r2
halt
w:
st r0 r4
halt
