// Traces that were cut off: what is there is shown, and the page says where the text ends.
"use strict";

const test = require("node:test");
const assert = require("node:assert/strict");
const { viewer, example, textOf, traceOf, historyOf } = require("./support.js");

const SHORT = ["combined_pair", "two_level_tree", "load_then_store", "address_fault", "narrow_reply_queues"];

/** Whether the cycles before the last that a cut text shows are those of the whole text. */
function agrees(cut, whole) {
    for (let cycle = 0; cycle + 1 < cut.count; cycle++) {
        assert.equal(viewer.cycleText(cut.read(cycle)), viewer.cycleText(whole.read(cycle)));
    }
    const [last, lastOfWhole] = [cut, whole].map((it) => viewer.cycleText(it.read(cut.count - 1)));
    assert.ok(lastOfWhole.startsWith(last), last);
}

for (const name of SHORT) {
    test(`${name}, cut off at each byte, is shown up to there`, () => {
        const text = textOf(example(name), "expected");
        const whole = traceOf(text);
        for (let length = "ultra trace 2\ncycle 0\n".length; length < text.length; length++) {
            const history = historyOf(text.slice(0, length));
            assert.ok(history.isDone);
            // a text that ends behind a whole line of two PEs is a whole trace of a machine with
            // two
            assert.ok(history.trace.cut || text.slice(0, length).endsWith("\n"), `${length}`);
            agrees(history.trace, whole);
        }
    });
}

test("a text cut off in its last cycle says so, and how many lines it has", () => {
    const text = textOf(example("two_level_tree"), "expected");
    const cut = traceOf(text.slice(0, text.indexOf("wait 1 0")));
    assert.deepEqual(cut.cut, { lines: text.slice(0, text.indexOf("wait 1 0")).split("\n").length - 1, isInCycle: true, isInLine: false });
    assert.equal(cut.end, null);
    assert.equal(cut.count, 5);
});

test("the size of a machine whose end is missing is guessed from the places that occur", () => {
    for (const [name, size] of [["combined_pair", 2], ["two_level_tree", 4], ["tickets", 8], ["barrier_of_eight", 8]]) {
        const text = textOf(example(name), "expected");
        assert.equal(traceOf(text.slice(0, text.indexOf("end "))).net.size, size, name);
    }
});

test("an end that lacks half of its PEs is a text that was cut off", () => {
    const text = textOf(example("tickets"), "expected");
    const cut = traceOf(text.slice(0, text.indexOf("pe 4 ")));
    assert.equal(cut.net.size, 8);
    assert.ok(cut.cut);
});

test("a fault before the place where a text was cut off is refused all the same", () => {
    const text = textOf(example("two_level_tree"), "expected");
    const broken = text.slice(0, text.indexOf("end ")).replace("req 1 0: 2@0 faa 10 *", "req 1 0: 2@0 faa 11 *");
    assert.throws(() => historyOf(broken), (fault) => fault.line === 15 && /'req 1 0: 2@0 faa 10 \*'/.test(fault.expected));
});
