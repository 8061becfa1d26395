; three requests of each PE, without a fence: a store of 0 in cell 0, an addition of 25
; to cell 25, and a store of 0 in cell 5
li r5 5
li r8 25
st r7 r6            ; r6 and r7 are 0
faa r13 r8 r8
st r5 r6
halt
