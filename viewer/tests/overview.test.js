// The numbers of every cycle, and how they are put into bins.
"use strict";

const test = require("node:test");
const assert = require("node:assert/strict");
const { viewer, example, exampleTraces, textOf, historyOf } = require("./support.js");

test("the numbers of a worked example, cycle by cycle", () => {
    const { overview } = historyOf(textOf(example("two_level_tree"), "expected"));
    const numbers = (name) => [...overview[name]];
    assert.deepEqual(numbers("issued"), [0, 0, 4, 0, 0, 0, 0, 0, 0, 0]);
    assert.deepEqual(numbers("open"), [0, 0, 4, 4, 4, 4, 4, 4, 4, 0]);
    assert.deepEqual(numbers("combined"), [0, 0, 0, 2, 1, 0, 0, 0, 0, 0]);
    assert.deepEqual(numbers("acts"), [0, 0, 0, 0, 0, 0, 1, 0, 0, 0]);
    assert.deepEqual(numbers("answered"), [0, 0, 0, 0, 0, 0, 0, 0, 0, 4]);
    assert.deepEqual(overview.names, ["open", "combined", "acts"]);
});

test("in every example the numbers are those of its requests, combinations and acts", () => {
    for (const folder of exampleTraces()) {
        const { overview, requests, pairs, acts, trace } = historyOf(textOf(folder, "expected"));
        for (let cycle = 0; cycle < trace.count; cycle++) {
            const isOpen = (it) => it.issued <= cycle && (it.answered === null || it.answered > cycle);
            assert.equal(overview.open[cycle], requests.filter(isOpen).length, `${folder}, cycle ${cycle}`);
            assert.equal(overview.combined[cycle], pairs.filter((it) => it.cycle === cycle).length);
            assert.equal(overview.acts[cycle], acts.filter((it) => it.cycle === cycle).length);
        }
    }
});

test("bins have the greatest number and the mean of their cycles, and none is empty", () => {
    const { count, greatest, mean } = viewer.binsOf(Uint16Array.of(1, 2, 3, 9, 0, 0, 4), 3);
    assert.equal(count, 3);
    assert.deepEqual([...greatest], [2, 9, 4]);
    assert.deepEqual([...mean].map((it) => it.toFixed(2)), ["1.50", "6.00", "1.33"]);
    assert.equal(viewer.binsOf(Uint16Array.of(5, 6), 100).count, 2);
});

test("the bins of a million cycles have each cycle once", () => {
    const series = new Uint16Array(1_000_000).map((_, index) => index % 7);
    const { count, greatest, mean } = viewer.binsOf(series, 1237);
    assert.equal(count, 1237);
    assert.ok(greatest.every((it) => it === 6));
    assert.ok(mean.every((it) => it > 2.9 && it < 3.1));
    series.fill(0)[765_432] = 1;
    assert.equal(viewer.binsOf(series, 1237).greatest.filter((it) => it === 1).length, 1);
});

test("the cycle of the event with a number, and the number of events up to a cycle", () => {
    const series = Uint16Array.of(0, 2, 0, 1);
    assert.deepEqual([0, 1, 2, 3].map((it) => viewer.countUpTo(series, it)), [0, 2, 2, 3]);
    assert.deepEqual([1, 2, 3, 4].map((it) => viewer.indexOfEvent(series, it)), [1, 1, 3, null]);
});
