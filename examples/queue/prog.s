; the queue of `ultra lib queue 2 1`, with four places: each PE inserts p + 1, then deletes an item.
; Cell 0 is an upper count of the items, cell 1 a lower one, cell 2 the insert index, cell 3 the delete
; index, cell 8 + i the turn word of place i, cell 12 + i its item, and cell 15 + v the result of v
pid r1
addi r1 r1 1        ; the value to insert
np r2
li r3 1
li r4 4             ; places
li r5 1             ; rounds left
li r15 4294967295   ; to add this is to subtract 1
insert:
li r6 0
ld r7 r6            ; is there a free place?
fence
slt r8 r7 r4
jz r8 insert
faa r7 r6 r3        ; claims one
fence
slt r8 r7 r4
jnz r8 put
faa r7 r6 r15       ; too late: takes its 1 back
fence
jmp insert
put:
li r6 2
faa r7 r6 r3        ; draws an insert ticket
fence
shr r8 r7 2
add r8 r8 r8        ; the turn of this ticket: twice its round
li r9 3
and r9 r7 r9
addi r10 r9 8       ; the turn word of its place
addi r11 r9 12      ; the item of its place
turn_to_insert:
ld r12 r10
fence
seq r13 r12 r8
jz r13 turn_to_insert
st r11 r1           ; inserts
fence
addi r8 r8 1
st r10 r8           ; now it is a deletion's turn
fence
li r6 1
faa r7 r6 r3        ; one item more
fence
delete:
li r6 1
ld r7 r6            ; is there an item?
fence
sub r8 r7 r3
slt r8 r8 r4
jz r8 delete
faa r7 r6 r15       ; claims one
fence
sub r8 r7 r3
slt r8 r8 r4
jnz r8 take
faa r7 r6 r3        ; too late: gives it back
fence
jmp delete
take:
li r6 3
faa r7 r6 r3        ; draws a delete ticket
fence
shr r8 r7 2
add r8 r8 r8
addi r8 r8 1        ; the turn of this ticket: twice its round, plus 1
li r9 3
and r9 r7 r9
addi r10 r9 8
addi r11 r9 12
turn_to_delete:
ld r12 r10
fence
seq r13 r12 r8
jz r13 turn_to_delete
ld r14 r11          ; takes the item
fence
addi r8 r8 1
st r10 r8           ; now it is an insertion's turn
fence
li r6 0
faa r7 r6 r15       ; one place is free again
fence
addi r6 r1 15
st r6 r14           ; the result
fence
add r1 r1 r2
sub r5 r5 r3
jnz r5 insert
halt
