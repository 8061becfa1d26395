; one processing element adds to a cell, and all others have halted: what a cycle costs where little happens
pid r1
jnz r1 end
li r2 1
again:
faa r3 r1 r2
jmp again
end:
halt
