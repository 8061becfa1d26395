// The rules by which the history of a trace is worked out: routes, pairs, and what a memory does.
"use strict";

const test = require("node:test");
const assert = require("node:assert/strict");
const { viewer } = require("./support.js");

const OPERATIONS = [
    { kind: "load", word: 0 },
    { kind: "store", word: 7 },
    { kind: "faa", word: 4294967290 },
    { kind: "swap", word: 9 },
];

test("the route of PE 6 to module 3 in a network of three stages", () => {
    const net = new viewer.Net(3);
    assert.deepEqual([0, 1, 2, 3].map((it) => net.line(it, 6, 3)), [6, 4, 1, 3]);
    assert.deepEqual([0, 1, 2].map((it) => net.entry(it, 6, 3)), [5, 1, 2]);
});

test("port by port, requests and replies take the positions of their route", () => {
    for (let stages = 1; stages <= 6; stages++) {
        const net = new viewer.Net(stages);
        for (let pe = 0; pe < net.size; pe++) {
            for (let module = 0; module < net.size; module += 3) {
                let line = pe;
                for (let stage = 0; stage < stages; stage++) {
                    const entry = net.shuffle(line);
                    assert.equal(entry, net.entry(stage, pe, module));
                    assert.equal((net.line(stage + 1, pe, module) & ~1) | net.replyPort(stage, pe), entry);
                    line = (entry & ~1) | net.requestPort(stage, module);
                    assert.equal(net.unshuffle(entry), net.line(stage, pe, module));
                }
                assert.equal(line, module);
            }
        }
    }
});

test("a pair leaves the cell, and answers both, as the two in its order", () => {
    for (const old of OPERATIONS) {
        for (const later of OPERATIONS) {
            for (const value of [0, 5, 4294967295]) {
                const { sent, giveOld, giveNew, isOldFirst } = viewer.pair(old, later);
                const [first, second] = isOldFirst ? [old, later] : [later, old];
                const one = viewer.act(first, value);
                const two = viewer.act(second, one.now);
                const both = viewer.act(sent, value);
                const answers = [giveOld, giveNew].map((it) => viewer.answerOf(it, both.reply));
                assert.equal(both.now, two.now);
                assert.deepEqual(answers, isOldFirst ? [one.reply, two.reply] : [two.reply, one.reply]);
            }
        }
    }
});

test("new comes first only where a store meets a load or a fetch-and-add", () => {
    const [load, store, faa, swap] = OPERATIONS;
    const isOldFirst = (old, later) => viewer.pair(old, later).isOldFirst;
    assert.deepEqual([load, store, faa, swap].map((it) => isOldFirst(it, store)), [false, true, false, true]);
    assert.deepEqual([load, store, faa, swap].map((it) => isOldFirst(it, swap)), [true, true, true, true]);
});
