// Stories of requests, events, cells and sentences, against the worked examples.
"use strict";

const test = require("node:test");
const assert = require("node:assert/strict");
const { viewer, example, exampleTraces, textOf, traceOf, historyOf } = require("./support.js");

function historyOfExample(name) {
    return historyOf(textOf(example(name), "expected"));
}

/** The history of an example of which so many cycles are worked out. */
function historyUpTo(name, cycles) {
    const history = new viewer.History(traceOf(textOf(example(name), "expected")));
    history.advance(cycles);
    return history;
}

function rowsOf(history, pe, number) {
    const rows = viewer.storyOf(history, history.requestsOfPe[pe][number]);
    return rows.map((it) => [it.cycle, it.until, it.place === null ? "" : `${viewer.placeText(it.place)}: ${it.text}`, it.happenings.join("; ")]);
}

test("the story of a request that goes on for two others", () => {
    assert.deepEqual(rowsOf(historyOfExample("two_level_tree"), 2, 0), [
        [2, 2, "pni 2: 2@0 faa 3", "PE 2 issues it"],
        [3, 3, "req 0 0: 2@0 faa 4 *", "it meets 0.0 at stage 0, position 0, and goes on for both"],
        [4, 4, "req 1 0: 2@0 faa 10 *", "it meets 3.0 at stage 1, position 0, and goes on for both"],
        [5, 5, "inp 0: 2@0 faa 10", ""],
        [6, 6, "out 0: 2@0 = 0", "module 0 serves it"],
        [7, 7, "rep 1 0: 2@0 = 0", "its reply is split at stage 1, position 0, for 3.0"],
        [8, 8, "rep 0 1: 2@0 = 0", "its reply is split at stage 0, position 0, for 0.0"],
        [9, 9, "", "PE 2 gets 0"],
    ]);
});

test("the story of a request that waits in two wait buffers' trees", () => {
    assert.deepEqual(rowsOf(historyOfExample("two_level_tree"), 1, 0), [
        [2, 2, "pni 1: 1@0 faa 2", "PE 1 issues it"],
        [3, 3, "wait 0 2: 3@0 same 1 plus 4", "it meets 3.0 at stage 0, position 2, which goes on for both"],
        [4, 5, "wait 0 2: 3@0 same 1 plus 4", "inside 3.0, it meets 2.0 at stage 1, position 0"],
        [6, 7, "wait 0 2: 3@0 same 1 plus 4", "module 0 serves it"],
        [8, 8, "rep 0 2: 1@0 = 8", "the reply is split"],
        [9, 9, "", "PE 1 gets 8"],
    ]);
});

test("a story goes on up to the last cycle that is worked out", () => {
    const history = historyUpTo("two_level_tree", 6);
    assert.deepEqual(rowsOf(history, 1, 0).map(([cycle, until]) => [cycle, until]), [[2, 2], [3, 3], [4, 5]]);
    history.advance(1);
    assert.deepEqual(rowsOf(history, 1, 0).at(-1), [6, 6, "wait 0 2: 3@0 same 1 plus 4", "module 0 serves it"]);
});

test("an answer or an act that isn't worked out yet isn't said to be missing in the trace", () => {
    const said = (history) => [viewer.answerSentence(history, history.requestsOfPe[0][0]), viewer.noActSentence(history)];
    const history = historyUpTo("two_level_tree", 6);
    assert.deepEqual(said(history), ["Its answer isn't worked out yet.", "Its act isn't worked out yet."]);
    history.advance(Infinity);
    assert.equal(said(history)[0], "Its answer is 3.");
    const text = textOf(example("two_level_tree"), "expected");
    const cut = historyOf(text.slice(0, text.indexOf("cycle 6")));
    assert.deepEqual(said(cut), ["It isn't answered in this trace.", "It isn't served in this trace."]);
});

test("in every example each request is somewhere in each cycle from its issue to its answer, and gets the answer of the order", () => {
    for (const folder of exampleTraces()) {
        const history = historyOf(textOf(folder, "expected"));
        const replies = new Map(history.acts.flatMap(viewer.replay).map((it) => [it.request, it.reply]));
        for (const request of history.requests) {
            const last = request.answered ?? history.trace.count;
            for (let cycle = request.issued; cycle < last; cycle++) {
                assert.ok(viewer.whereIs(history.trace, request, cycle), `${folder}: ${viewer.nameOf(request)} in cycle ${cycle}`);
            }
            if (request.answered !== null) {
                assert.equal(request.value, replies.get(request));
            }
        }
    }
});

test("a message names the request that was open, also where a PE issues again in the cycle of an answer", () => {
    const history = historyOfExample("open_cell_stall");
    const message = { pe: 0, cell: 0 };
    assert.equal(viewer.requestAt(history, message, 7).number, 0);
    assert.equal(viewer.requestAt(history, message, 8).number, 1);
    assert.equal(viewer.requestAt(history, message, 2), null);
    assert.equal(viewer.requestAt(history, message, 13), null);
});

test("a message names no request where the history isn't worked out yet", () => {
    const history = historyUpTo("open_cell_stall", 5);
    const message = { pe: 0, cell: 0 };
    assert.equal(viewer.requestAt(history, message, 4).number, 0);
    assert.deepEqual([5, 8].map((it) => viewer.requestAt(history, message, it)), [null, null]);
    history.advance(4);
    assert.equal(viewer.requestAt(history, message, 8).number, 1);
});

test("next acts, combinations, and events of a cell and of a PE", () => {
    const history = historyOfExample("wait_buffer_full");
    const acts = viewer.cyclesOf(history, "act");
    assert.deepEqual(acts, [5, 6, 7]);
    assert.deepEqual(viewer.cyclesOf(history, "combination"), [3]);
    assert.deepEqual(viewer.cyclesOf(history, "cell", 2), [3, 6, 7, 8, 9]);
    assert.deepEqual(viewer.cyclesOf(history, "pe", 0), [2, 3, 5, 6, 7, 8]);
    assert.equal(viewer.nextCycle(acts, 5, 1), 6);
    assert.equal(viewer.nextCycle(acts, 5, -1), null);
    assert.equal(viewer.nextCycle(acts, 7, 1), null);
});

test("a fault is an event of its PE", () => {
    assert.ok(viewer.cyclesOf(historyOfExample("address_fault"), "pe", 1).includes(3));
});

function cells(history, cycle) {
    return viewer.cellsAt(history, cycle).map((it) => [it.cell, it.value]);
}

test("the cells that aren't 0, cycle by cycle", () => {
    const wraparound = historyOfExample("wraparound");
    assert.deepEqual([0, 4, 5, 7].map((it) => cells(wraparound, it)), [[[0, 1]], [[0, 1]], [[0, 4294967295]], [[0, 4294967295]]]);
    const full = historyOfExample("wait_buffer_full");
    assert.deepEqual([4, 5, 6, 7].map((it) => cells(full, it)), [[], [[0, 2]], [[0, 2], [2, 1]], [[0, 2], [2, 2]]]);
    for (const folder of exampleTraces()) {
        const history = historyOf(textOf(folder, "expected"));
        const { end, count } = history.trace;
        assert.deepEqual(cells(history, count - 1), end.cells.map((it) => [it.cell, it.value]), folder);
    }
});

test("a cell has no value where it isn't worked out yet, and no cell has the value of the end before its first act", () => {
    const full = historyUpTo("wait_buffer_full", 6);
    assert.deepEqual([4, 5, 6, 9].map((it) => cells(full, it)), [[], [[0, 2]], [], []]);
    full.advance(1);
    assert.deepEqual([5, 6, 7].map((it) => cells(full, it)), [[[0, 2]], [[0, 2], [2, 1]], []]);
    const wraparound = historyUpTo("wraparound", 5);
    assert.deepEqual(cells(wraparound, 4), []);
    wraparound.advance(1);
    assert.deepEqual(cells(wraparound, 4), [[0, 1]]);
});

test("where no cell is known to have a value it is said how far that is known", () => {
    const history = historyUpTo("wait_buffer_full", 5);
    assert.equal(viewer.noCellsText(history, 5), "Not worked out yet.");
    assert.equal(viewer.noCellsText(history, 4), "Every cell is 0, as far as the trace is worked out.");
    history.advance(Infinity);
    assert.equal(viewer.noCellsText(history, 4), "Every cell is 0, as far as the trace says.");
});

test("the sentences of a cycle", () => {
    const history = historyOfExample("two_level_tree");
    const { trace } = history;
    const said = (cycle) => {
        const step = viewer.stepOf(trace.net, trace.before(cycle), trace.cycle(cycle));
        return viewer.sentencesOf(history, trace.cycle(cycle), step).map((it) => it.map((part) => part.text ?? part).join(""));
    };
    assert.deepEqual(said(3), [
        "At stage 0, position 0, 2.0 (faa 3) and 0.0 (faa 1) combine: 2@0 faa 4 goes on",
        "At stage 0, position 2, 3.0 (faa 4) and 1.0 (faa 2) combine: 3@0 faa 6 goes on",
    ]);
    assert.deepEqual(said(6), ["Module 0 serves 2@0 faa 10: cell 0 was 0 and is 10"]);
    assert.deepEqual(said(7), ["At stage 1, position 0, the reply 2@0 = 0 is split: 2@0 = 0 for 2.0 and 3@0 = 4 for 3.0"]);
});

test("a request that finds no room is said to stay", () => {
    const { trace } = historyOfExample("narrow_reply_queues");
    const step = viewer.stepOf(trace.net, trace.before(7), trace.cycle(7));
    assert.deepEqual(step.stays.map((it) => viewer.placeText(it.from)), ["out 1"]);
});
