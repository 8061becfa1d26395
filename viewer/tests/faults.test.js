// Texts that aren't traces: each is refused with the number of the line and with what was expected
// there.
"use strict";

const test = require("node:test");
const assert = require("node:assert/strict");
const { viewer, example, textOf, historyOf } = require("./support.js");

const PAIR = textOf(example("combined_pair"), "expected");
const TREE = textOf(example("two_level_tree"), "expected");
const LIMIT = textOf(example("cycle_limit"), "expected");

function faultOf(text) {
    try {
        historyOf(text);
    } catch (fault) {
        assert.ok(fault instanceof viewer.Fault, fault.stack);
        return fault;
    }
    return null;
}

/**
 * A fault: a line of a good trace, what is written instead (null for nothing), and what is said.
 */
const FAULTS = [
    ["the head", PAIR, "ultra trace 2", "ultra trace 1", /'ultra trace 2'/],
    ["no cycle 0", PAIR, "cycle 0", "cycle 1", /'cycle 0'/],
    ["a cycle left out", PAIR, "cycle 4", "cycle 5", /'cycle 4'/],
    ["a cycle twice", PAIR, "cycle 4", "cycle 3", /'cycle 4'/],
    ["a cycle's number with a zero before it", PAIR, "cycle 4", "cycle 04", /without leading zeros/],
    ["a cycle without a number", PAIR, "cycle 4", "cycle", /'cycle'/],
    ["an unknown line", PAIR, "inp 0: 1@0 faa 2", "ink 0: 1@0 faa 2", /a line of cycle 4/],
    ["an empty line", PAIR, "inp 0: 1@0 faa 2", "", /a line of cycle 4/],
    ["a blank before a line", PAIR, "inp 0: 1@0 faa 2", " inp 0: 1@0 faa 2", /a line of cycle 4/],
    ["a blank behind a line", PAIR, "inp 0: 1@0 faa 2", "inp 0: 1@0 faa 2 ", /the end of the line/],
    ["a carriage return", PAIR, "inp 0: 1@0 faa 2", "inp 0: 1@0 faa 2\r", /the end of the line/],
    ["no colon", PAIR, "inp 0: 1@0 faa 2", "inp 0 1@0 faa 2", /':'/],
    ["an unknown operation", PAIR, "inp 0: 1@0 faa 2", "inp 0: 1@0 add 2", /'load', 'store', 'faa' or 'swap'/],
    ["an operation without its word", PAIR, "inp 0: 1@0 faa 2", "inp 0: 1@0 faa", /'load', 'store', 'faa' or 'swap'/],
    ["a word that is too large", PAIR, "inp 0: 1@0 faa 2", "inp 0: 1@0 faa 4294967296", /at most 4294967295/],
    ["a PE that no machine has", PAIR, "inp 0: 1@0 faa 2", "inp 0: 64@0 faa 2", /at most 63/],
    ["a cell that no machine has", PAIR, "inp 0: 1@0 faa 2", "inp 0: 1@262144 faa 2", /at most 262143/],
    ["two requests in one register", PAIR, "inp 0: 1@0 faa 2", "inp 0: 1@0 faa 2, 1@0 faa 2", /the end of the line/],
    ["a mark outside a queue", PAIR, "inp 0: 1@0 faa 2", "inp 0: 1@0 faa 2 *", /the end of the line/],
    ["a list without entries", PAIR, "req 0 0: 1@0 faa 2 *", "req 0 0: ", /the number of a PE/],
    ["a list that ends with a comma", PAIR, "req 0 0: 1@0 faa 2 *", "req 0 0: 1@0 faa 2 *,", /the end of the line/],
    ["a stage that no machine has", PAIR, "req 0 0: 1@0 faa 2 *", "req 6 0: 1@0 faa 2 *", /at most 5/],
    ["a stage that this machine lacks", PAIR, "req 0 0: 1@0 faa 2 *", "req 1 0: 1@0 faa 2 *", /a machine with 1 stages and 2 PEs/],
    ["a position that this machine lacks", PAIR, "req 0 0: 1@0 faa 2 *", "req 0 2: 1@0 faa 2 *", /a machine with 1 stages and 2 PEs/],
    ["a request off its route", PAIR, "req 0 0: 1@0 faa 2 *", "req 0 1: 1@0 faa 2 *", /way leads over 'req 0 1'/],
    ["a request in another PE's list", PAIR, "pni 0: 0@0 faa 1", "pni 0: 1@0 faa 1", /way leads over 'pni 0'/],
    ["a request in another module", PAIR, "inp 0: 1@0 faa 2", "inp 1: 1@0 faa 2", /way leads over 'inp 1'/],
    ["a reply off its route", TREE, "rep 1 1: 3@0 = 4", "rep 1 2: 3@0 = 4", /way leads over 'rep 1 2'/],
    ["a record off its route", TREE, "wait 1 0: 2@0 same 3 plus 4", "wait 1 1: 2@0 same 3 plus 4", /way leads over 'wait 1 1'/],
    ["an unknown way of answering", PAIR, "wait 0 0: 1@0 same 0 plus 1", "wait 0 0: 1@0 equal 0 plus 1", /'same', 'plus', 'fixed' or 'ack'/],
    ["lines in another order", TREE, "req 0 0: 2@0 faa 4 *\nreq 0 2: 3@0 faa 6 *", "req 0 2: 3@0 faa 6 *\nreq 0 0: 2@0 faa 4 *", /lines in the order/, 1],
    ["a place twice", PAIR, "req 0 0: 1@0 faa 2 *", "req 0 0: 1@0 faa 2 *\nreq 0 0: 1@0 faa 2 *", /lines in the order/, 1],
    ["a reply without a value", PAIR, "got 0@0 = 1", "got 0@0 = ", /'ack' or a word/],
    ["an act in another module", PAIR, "act 0 1@0 faa 2 = 0 now 2", "act 1 1@0 faa 2 = 0 now 2", /a request for a cell of module 1/],
    ["an act without the new value", PAIR, "act 0 1@0 faa 2 = 0 now 2", "act 0 1@0 faa 2 = 0", /'now'/],
    ["a fault of no kind", PAIR, "got 0@0 = 1", "fault 0 f3", /'f1' or 'f2'/],
    ["an end of no kind", PAIR, "end quiet", "end loud", /'quiet' or 'limit'/],
    ["a cell of the end that is 0", PAIR, "cell 0 2", "cell 0 0", /a word that isn't 0/],
    ["cells of the end in another order", PAIR, "cell 0 2", "cell 0 2\ncell 0 2", /a cell after 0/, 1],
    ["a PE's state of no kind", PAIR, "pe 0 halted 3 r2=1 r3=1", "pe 0 asleep 3 r2=1 r3=1", /'running', 'halted', 'f1' or 'f2'/],
    ["a PE left out", PAIR, "pe 0 halted 3 r2=1 r3=1", "pe 1 halted 3 r2=1 r3=1", /'pe 0'/],
    ["a register that is 0", PAIR, "pe 0 halted 3 r2=1 r3=1", "pe 0 halted 3 r2=0 r3=1", /a word that isn't 0/],
    ["a register that isn't there", PAIR, "pe 0 halted 3 r2=1 r3=1", "pe 0 halted 3 r16=1", /at most 15/],
    ["registers in another order", PAIR, "pe 0 halted 3 r2=1 r3=1", "pe 0 halted 3 r3=1 r2=1", /a register after r3/],
    ["a line behind the end", PAIR, "pe 1 halted 3 r2=1", "pe 1 halted 3 r2=1\ncell 1 1", /'pe 2' or the end of the text/, 1],
];

/** Traces whose lines are well formed and whose machine does what no machine does. */
const FALSE_RUNS = [
    ["a combination with another sum", PAIR, "req 0 0: 1@0 faa 2 *", "req 0 0: 1@0 faa 3 *", /'req 0 0: 1@0 faa 2 \*'/],
    ["a combination without its mark", PAIR, "req 0 0: 1@0 faa 2 *", "req 0 0: 1@0 faa 2", /'req 0 0: 1@0 faa 2 \*'/],
    ["a record that answers otherwise", PAIR, "wait 0 0: 1@0 same 0 plus 1", "wait 0 0: 1@0 same 0 plus 2", /'wait 0 0: 1@0 same 0 plus 1'/],
    ["an act on another request", PAIR, "act 0 1@0 faa 2 = 0 now 2", "act 0 0@0 faa 2 = 0 now 2", /'act 0 1@0 faa 2 = 0 now 2'/],
    ["an act with another sum", PAIR, "act 0 1@0 faa 2 = 0 now 2", "act 0 1@0 faa 2 = 0 now 3", /'act 0 1@0 faa 2 = 0 now 2'/],
    ["an act left out", PAIR, "act 0 1@0 faa 2 = 0 now 2\n", "", /'act 0 1@0 faa 2'/],
    ["a reply of another value", PAIR, "rep 0 0: 0@0 = 1", "rep 0 0: 0@0 = 2", /'rep 0 0: 0@0 = 1'/],
    ["a reply that is lost", PAIR, "rep 0 0: 0@0 = 1\n", "", /'rep 0 0: 0@0 = 1'/],
    ["an answer that nobody gave", PAIR, "cycle 3\n", "cycle 3\ngot 0@0 = 7\n", /no line 'got 0@0 = 7'/, 1],
    ["an answer left out", PAIR, "got 0@0 = 1\n", "", /'got 0@0 = 1'/],
    ["an answer of another value", PAIR, "got 0@0 = 1", "got 0@0 = 2", /'got 0@0 = 1'/],
    ["a request from nowhere", PAIR, "cycle 4\n", "cycle 4\nreq 0 1: 1@1 load\n", /no line 'req 0 1'/, 1],
    ["a cell that ends otherwise", PAIR, "cell 0 2", "cell 0 3", /'cell 0 2'/],
    ["a cell of the end left out", PAIR, "cell 0 2\n", "", /'cell 0 2'/],
    ["an end at the limit that is quiet", PAIR, "end quiet", "end limit", /'end quiet'/],
    ["a quiet end with messages left", LIMIT, "end limit", "end quiet", /'end limit'/],
];

for (const [name, text, line, wrong, expected, later = 0] of [...FAULTS, ...FALSE_RUNS]) {
    test(`refused: ${name}`, () => {
        const at = text.indexOf(`\n${line}`.replace(/^\n(?=ultra)/, "")) + (line.startsWith("ultra") ? 0 : 1);
        assert.ok(text.startsWith(line, at), `the trace has no line '${line}'`);
        const changed = text.slice(0, at) + wrong + text.slice(at + line.length);
        const fault = faultOf(changed);
        assert.ok(fault, "the text isn't refused");
        assert.match(fault.expected, expected);
        assert.equal(fault.line, text.slice(0, at).split("\n").length + later);
    });
}

test("refused: an act on a value that the cell doesn't have", () => {
    const good = textOf(example("uncombined_pair"), "expected");
    const text = good.replace("act 0 0@0 faa 1 = 1 now 2", "act 0 0@0 faa 1 = 5 now 6").replace("out 0: 0@0 = 1", "out 0: 0@0 = 5");
    assert.match(faultOf(text).expected, /the value 1 of cell 0/);
});

test("an empty text is refused, and so is one that ends in its first two lines", () => {
    for (const text of ["", "ultra", "ultra trace 2", "ultra trace 2\n", "ultra trace 2\ncycle 0"]) {
        assert.ok(faultOf(text).isCut, JSON.stringify(text));
    }
});

test("a good trace isn't refused", () => {
    [PAIR, TREE, LIMIT].forEach((it) => assert.equal(faultOf(it), null));
});
