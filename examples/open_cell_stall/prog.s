; PE 0 adds 1 to cell 0 twice: the second addition stalls until the first is answered
pid r1
jnz r1 end          ; the other PEs halt
li r2 1
faa r3 r0 r2
faa r4 r0 r2
end:
halt
