; PE 0 loads cell 0, and PE 1 stores 7 in it: PE 0's request is old
li r2 7
pid r1
jnz r1 w            ; PE 1 goes to w
ld r3 r0
halt
w:
st r0 r2
halt
