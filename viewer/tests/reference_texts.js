// Texts of an independent simulator: what `steps` writes of a run, and parts of traces. Each is of the
// settings and the program of an example: the folder of that name in examples/.
"use strict";

/** All steps of a run, by its example. */
const STEPS = {
    combined_pair: `0 step 0 0 li r1 0 r1=0
0 step 1 0 li r1 0 r1=0
1 step 0 1 li r2 1 r2=1
1 step 1 1 li r2 1 r2=1
2 step 0 2 faa r3 r1 r2 0.0@0 faa 1
2 step 1 2 faa r3 r1 r2 1.0@0 faa 1
3 step 0 3 halt
3 step 1 3 halt
7 reply 0 r3=1 0.0@0
7 reply 1 r3=0 1.0@0
`,
    open_cell_stall: `0 step 0 0 pid r1 r1=0
0 step 1 0 pid r1 r1=1
1 step 0 1 jnz r1 L5
1 step 1 1 jnz r1 L5
2 step 0 2 li r2 1 r2=1
2 step 1 5 halt
3 step 0 3 faa r3 r0 r2 0.0@0 faa 1
8 reply 0 r3=0 0.0@0
8 step 0 4 faa r4 r0 r2 0.1@0 faa 1
9 step 0 5 halt
13 reply 0 r4=1 0.1@0
`,
    address_fault: `0 step 0 0 pid r1 r1=0
0 step 1 0 pid r1 r1=1
1 step 0 1 add r1 r1 r1 r1=0
1 step 1 1 add r1 r1 r1 r1=2
2 step 0 2 li r2 1 r2=1
2 step 1 2 li r2 1 r2=1
3 step 0 3 faa r3 r1 r2 0.0@0 faa 1
3 step 1 3 faa r3 r1 r2 @2 f1
4 step 0 4 halt
8 reply 0 r3=0 0.0@0
`,
    cycle_limit: `0 step 0 0 li r1 0 r1=0
0 step 1 0 li r1 0 r1=0
1 step 0 1 li r2 1 r2=1
1 step 1 1 li r2 1 r2=1
2 step 0 2 faa r3 r1 r2 0.0@0 faa 1
2 step 1 2 faa r3 r1 r2 1.0@0 faa 1
3 step 0 3 halt
3 step 1 3 halt
`,
    load_then_store: `0 step 0 0 li r2 7 r2=7
0 step 1 0 li r2 7 r2=7
1 step 0 1 pid r1 r1=0
1 step 1 1 pid r1 r1=1
2 step 0 2 jnz r1 L5
2 step 1 2 jnz r1 L5
3 step 0 3 ld r3 r0 0.0@0 load
3 step 1 5 st r0 r2 1.0@0 store 7
4 step 0 4 halt
4 step 1 6 halt
8 reply 0 r3=7 0.0@0
`,
    two_level_tree: `0 step 0 0 pid r2 r2=0
0 step 1 0 pid r2 r2=1
0 step 2 0 pid r2 r2=2
0 step 3 0 pid r2 r2=3
1 step 0 1 addi r2 r2 1 r2=1
1 step 1 1 addi r2 r2 1 r2=2
1 step 2 1 addi r2 r2 1 r2=3
1 step 3 1 addi r2 r2 1 r2=4
2 step 0 2 faa r3 r0 r2 0.0@0 faa 1
2 step 1 2 faa r3 r0 r2 1.0@0 faa 2
2 step 2 2 faa r3 r0 r2 2.0@0 faa 3
2 step 3 2 faa r3 r0 r2 3.0@0 faa 4
3 step 0 3 halt
3 step 1 3 halt
3 step 2 3 halt
3 step 3 3 halt
9 reply 0 r3=3 0.0@0
9 reply 1 r3=8 1.0@0
9 reply 2 r3=0 2.0@0
9 reply 3 r3=4 3.0@0
`,
    barrier: `0 step 0 0 pid r1 r1=0
0 step 1 0 pid r1 r1=1
1 step 0 1 addi r2 r1 8 r2=8
1 step 1 1 addi r2 r1 8 r2=9
2 step 0 2 np r3 r3=2
2 step 1 2 np r3 r3=2
3 step 0 3 add r4 r2 r3 r4=10
3 step 1 3 add r4 r2 r3 r4=11
4 step 0 4 li r5 1 r5=1
4 step 1 4 li r5 1 r5=1
5 step 0 5 sub r6 r3 r5 r6=1
5 step 1 5 sub r6 r3 r5 r6=1
6 step 0 6 li r7 0 r7=0
6 step 1 6 li r7 0 r7=0
7 step 0 7 li r8 1 r8=1
7 step 1 7 li r8 1 r8=1
8 step 0 8 addi r7 r7 1 r7=1
8 step 1 8 addi r7 r7 1 r7=1
9 step 0 9 st r2 r7 0.0@8 store 1
9 step 1 9 st r2 r7 1.0@9 store 1
14 step 0 10 fence
14 step 1 10 fence
15 step 0 11 faa r9 r0 r5 0.1@0 faa 1
15 step 1 11 faa r9 r0 r5 1.1@0 faa 1
20 reply 0 r9=0 0.1@0
20 reply 1 r9=1 1.1@0
20 step 0 12 fence
20 step 1 12 fence
21 step 0 13 and r10 r9 r6 r10=0
21 step 1 13 and r10 r9 r6 r10=1
22 step 0 14 sub r9 r9 r10 r9=0
22 step 1 14 sub r9 r9 r10 r9=0
23 step 0 15 add r9 r9 r3 r9=2
23 step 1 15 add r9 r9 r3 r9=2
24 step 0 16 ld r10 r0 0.2@0 load
24 step 1 16 ld r10 r0 1.2@0 load
29 reply 0 r10=2 0.2@0
29 reply 1 r10=2 1.2@0
29 step 0 17 fence
29 step 1 17 fence
30 step 0 18 slt r11 r10 r9 r11=0
30 step 1 18 slt r11 r10 r9 r11=0
31 step 0 19 jnz r11 L16
31 step 1 19 jnz r11 L16
32 step 0 20 st r4 r7 0.3@10 store 1
32 step 1 20 st r4 r7 1.3@11 store 1
37 step 0 21 fence
37 step 1 21 fence
38 step 0 22 seq r11 r7 r8 r11=1
38 step 1 22 seq r11 r7 r8 r11=1
39 step 0 23 jz r11 L8
39 step 1 23 jz r11 L8
40 step 0 24 halt
40 step 1 24 halt
`,
};

/** The steps of a run of open_cell_stall from cycle 3 on. */
const LATE_STEPS = `3 step 0 3 faa r3 r0 r2 0.0@0 faa 1
8 reply 0 r3=0 0.0@0
8 step 0 4 faa r4 r0 r2 0.1@0 faa 1
9 step 0 5 halt
13 reply 0 r4=1 0.1@0
`;

/** Parts of traces: the example, the first and the last cycle that were asked for, and the text. */
const PARTS = [
    ["combined_pair", 5, 6, `ultra trace 2
part 5 6 all
cycle 5
act 0 1@0 faa 2 = 0 now 2
wait 0 0: 1@0 same 0 plus 1
out 0: 1@0 = 0
cycle 6
rep 0 0: 0@0 = 1
rep 0 1: 1@0 = 0
end quiet
cell 0 2
pe 0 halted 3 r2=1 r3=1
pe 1 halted 3 r2=1
`],
    ["two_level_tree", 4, 8, `ultra trace 2
part 4 8 all
cycle 4
req 1 0: 2@0 faa 10 *
wait 0 0: 2@0 same 0 plus 3
wait 0 2: 3@0 same 1 plus 4
wait 1 0: 2@0 same 3 plus 4
cycle 5
wait 0 0: 2@0 same 0 plus 3
wait 0 2: 3@0 same 1 plus 4
wait 1 0: 2@0 same 3 plus 4
inp 0: 2@0 faa 10
cycle 6
act 0 2@0 faa 10 = 0 now 10
wait 0 0: 2@0 same 0 plus 3
wait 0 2: 3@0 same 1 plus 4
wait 1 0: 2@0 same 3 plus 4
out 0: 2@0 = 0
cycle 7
wait 0 0: 2@0 same 0 plus 3
wait 0 2: 3@0 same 1 plus 4
rep 1 0: 2@0 = 0
rep 1 1: 3@0 = 4
cycle 8
rep 0 0: 0@0 = 3
rep 0 1: 2@0 = 0
rep 0 2: 1@0 = 8
rep 0 3: 3@0 = 4
end quiet
cell 0 10
pe 0 halted 3 r2=1 r3=3
pe 1 halted 3 r2=2 r3=8
pe 2 halted 3 r2=3
pe 3 halted 3 r2=4 r3=4
`],
    ["two_level_tree", 7, 99, `ultra trace 2
part 7 99 all
cycle 7
wait 0 0: 2@0 same 0 plus 3
wait 0 2: 3@0 same 1 plus 4
rep 1 0: 2@0 = 0
rep 1 1: 3@0 = 4
cycle 8
rep 0 0: 0@0 = 3
rep 0 1: 2@0 = 0
rep 0 2: 1@0 = 8
rep 0 3: 3@0 = 4
cycle 9
got 0@0 = 3
got 1@0 = 8
got 2@0 = 0
got 3@0 = 4
end quiet
cell 0 10
pe 0 halted 3 r2=1 r3=3
pe 1 halted 3 r2=2 r3=8
pe 2 halted 3 r2=3
pe 3 halted 3 r2=4 r3=4
`],
    ["open_cell_stall", 0, 8, `ultra trace 2
part 0 8 all
cycle 0
cycle 1
cycle 2
cycle 3
pni 0: 0@0 faa 1
cycle 4
req 0 0: 0@0 faa 1
cycle 5
inp 0: 0@0 faa 1
cycle 6
act 0 0@0 faa 1 = 0 now 1
out 0: 0@0 = 0
cycle 7
rep 0 0: 0@0 = 0
cycle 8
got 0@0 = 0
pni 0: 0@0 faa 1
end quiet
cell 0 2
pe 0 halted 5 r2=1 r4=1
pe 1 halted 5 r1=1
`],
    ["wraparound", 5, 5, `ultra trace 2
part 5 5 all
cycle 5
act 0 1@0 faa 4294967294 = 1 now 4294967295
wait 0 0: 1@0 same 0 plus 4294967295
out 0: 1@0 = 1
end quiet
cell 0 4294967295
pe 0 halted 3 r2=4294967295
pe 1 halted 3 r2=4294967295 r3=1
`],
];

/** Parts that have no state to draw, and one without a cycle, of combined_pair. */
const EVENTS_ALONE = `ultra trace 2
part 0 1000000 events
cycle 0
cycle 1
cycle 2
cycle 3
cycle 4
cycle 5
act 0 1@0 faa 2 = 0 now 2
cycle 6
cycle 7
got 0@0 = 1
got 1@0 = 0
end quiet
cell 0 2
pe 0 halted 3 r2=1 r3=1
pe 1 halted 3 r2=1
`;
const NO_CYCLE = `ultra trace 2
part 90 1000000 all
end quiet
cell 0 2
pe 0 halted 3 r2=1 r3=1
pe 1 halted 3 r2=1
`;

module.exports = { STEPS, LATE_STEPS, PARTS, EVENTS_ALONE, NO_CYCLE };
