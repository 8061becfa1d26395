; PE p loads cell $$mp, so module $$mp of four. All PEs do so in the same cycle.
pid r1
li r3 0
seq r4 r1 r3 ; 1 in PE 0 ..
sub r4 r0 r4 ; .. and then all bits
li r5 $m0
and r5 r5 r4
add r2 r2 r5
li r3 1
seq r4 r1 r3
sub r4 r0 r4
li r5 $m1
and r5 r5 r4
add r2 r2 r5
li r3 2
seq r4 r1 r3
sub r4 r0 r4
li r5 $m2
and r5 r5 r4
add r2 r2 r5
li r3 3
seq r4 r1 r3
sub r4 r0 r4
li r5 $m3
and r5 r5 r4
add r2 r2 r5
ld r6 r2
halt
