// What docs/LESSONS.md says is to be seen in the viewer, lesson by lesson.
"use strict";

const test = require("node:test");
const assert = require("node:assert/strict");
const { viewer, example, textOf, historyOf } = require("./support.js");

function historyOfExample(name) {
    return historyOf(textOf(example(name), "expected"));
}

/** The entries of a place after a cycle, as the trace writes them. */
function entries({ trace }, number, kind, stage, position) {
    const list = trace.cycle(number).places.get(viewer.placeOf(kind, stage, position)) ?? [];
    return list.map(viewer.entryText);
}

/** The stages at which replies are split in a cycle. */
function splitStages({ trace }, number) {
    const step = viewer.stepOf(trace.net, trace.before(number), trace.cycle(number));
    return step.splits.map((it) => viewer.stageOf(it.place));
}

const { REQ, WAIT, INP, REP } = viewer;

test("lesson 1: two requests meet in cycle 3, and the reply is split in cycle 6", () => {
    const history = historyOfExample("combined_pair");
    assert.deepEqual(viewer.cyclesOf(history, "combination"), [3]);
    assert.deepEqual(entries(history, 3, REQ, 0, 0), ["1@0 faa 2 *"]);
    assert.deepEqual(entries(history, 4, INP, 0, 0), ["1@0 faa 2"]);
    assert.deepEqual(viewer.cyclesOf(history, "act"), [5]);
    assert.deepEqual(splitStages(history, 6), [0]);
});

test("lesson 2: pairs in cycles 3 and 4, splits in cycles 7 and 8", () => {
    const history = historyOfExample("four_to_one_cell");
    assert.deepEqual(history.pairs.map((it) => [it.cycle, it.stage]), [[3, 0], [3, 0], [4, 1]]);
    assert.deepEqual(history.acts.map((it) => viewer.leavesOf(it.tree).length), [4]);
    assert.deepEqual([7, 8].map((it) => splitStages(history, it)), [[1], [0, 0]]);
});

test("lesson 3: two entries for cell 2 that aren't marked, and three acts", () => {
    const history = historyOfExample("wait_buffer_full");
    assert.deepEqual(entries(history, 4, REQ, 0, 0), ["0@2 faa 1", "1@2 faa 1"]);
    assert.deepEqual(entries(history, 4, WAIT, 0, 0), ["1@0 same 0 plus 1"]);
    assert.deepEqual(viewer.cyclesOf(history, "act"), [5, 6, 7]);
});

test("lesson 4: a reply passes another PE's record in cycle 6, and its own reply is split in cycle 7", () => {
    const history = historyOfExample("identity_not_cell");
    assert.deepEqual(entries(history, 6, REP, 1, 0), ["0@0 = 0"]);
    assert.deepEqual(entries(history, 6, WAIT, 1, 0), ["2@0 same 3 same"]);
    assert.deepEqual(entries(history, 7, REP, 1, 0), ["2@0 = 0"]);
    assert.deepEqual(splitStages(history, 7), [1]);
});

test("lesson 5: the later addition of PE 2 is served in cycle 6, the one before it in cycle 7", () => {
    const history = historyOfExample("later_add_first");
    const [first, second] = history.requestsOfPe[2];
    assert.deepEqual([second, first].map((it) => viewer.actOf(it).cycle), [6, 7]);
    assert.equal(second.issued, 2);
    assert.deepEqual(entries(history, 2, REQ, 0, 0), ["0@0 faa 0", "2@0 faa 2"]);
    assert.deepEqual(entries(history, 4, REQ, 1, 0).slice(0, 2), ["0@0 faa 0", "2@0 faa 2"]);
});

test("lesson 6: additions meet in cycle 16, loads in cycle 25, and each stores after its load", () => {
    const history = historyOfExample("barrier");
    assert.deepEqual(viewer.cyclesOf(history, "combination"), [16, 25]);
    assert.ok(viewer.cyclesOf(history, "act").includes(18));
    const [, , load, store] = history.requestsOfPe[0];
    assert.ok(store.issued > load.answered);
});
