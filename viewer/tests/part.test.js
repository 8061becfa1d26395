// Parts of traces: what is known of them is what the whole trace says, and the rest is unknown.
"use strict";

const test = require("node:test");
const assert = require("node:assert/strict");
const { viewer, example, exampleTraces, textOf, traceOf, historyOf, bytesOf } = require("./support.js");
const { PARTS, EVENTS_ALONE, NO_CYCLE, STEPS } = require("./reference_texts.js");

/** The part of a trace with these cycles, as `run --from A --to B` writes it. */
function partOf(text, from, to) {
    const [head, ...cycles] = text.slice(0, text.indexOf("end ")).split(/^(?=cycle )/m);
    return `${head}part ${from} ${to} all\n${cycles.slice(from, to + 1).join("")}${text.slice(text.indexOf("end "))}`;
}

test("parts are made here as another simulator writes them", () => {
    for (const [name, from, to, text] of PARTS) {
        assert.equal(partOf(textOf(example(name), "expected"), from, to), text, `${name} ${from} ${to}`);
    }
});

test("a part, read and written again, has the same bytes, and its own cycles", () => {
    for (const [, from, , text] of PARTS) {
        const trace = traceOf(text);
        assert.equal(viewer.traceText(trace), text);
        assert.equal(trace.first, from);
        assert.equal(trace.text(from).split("\n")[0], `cycle ${from}`);
    }
});

/** The leaves of an act in serial order, each with its PE, its cell and its answer. */
function leavesOf(act) {
    return viewer.leavesOf(act.tree).map((it) => [it.pe, it.cell]);
}

/** What is known of an act of a part is so in the whole trace. */
function checkAct(act, whole) {
    const found = whole.acts.find((it) => it.cycle === act.cycle && it.module === act.module);
    assert.deepEqual(leavesOf(act), leavesOf(found));
    assert.deepEqual([act.value, act.now], [found.value, found.now]);
    viewer.leavesOf(act.tree).forEach((leaf, index) => {
        const same = viewer.leavesOf(found.tree)[index];
        assert.equal(leaf.number, null);
        if (leaf.kind !== null) {
            assert.deepEqual([leaf.kind, leaf.word], [same.kind, same.word]);
        }
        if (leaf.answered !== null) {
            assert.deepEqual([leaf.answered, leaf.value], [same.answered, same.value]);
        }
    });
}

/** The cells of a part have the values of the whole trace, or none where no act has shown them. */
function checkCells(part, whole, cycle) {
    const values = new Map(viewer.cellsAt(whole, cycle).map((it) => [it.cell, it.value]));
    const { first, isToEnd } = part.trace;
    for (const { cell, value } of viewer.cellsAt(part, cycle)) {
        const isShown = part.cells.get(cell)?.acts.some((it) => it.cycle <= cycle);
        const isUntouched = isToEnd && !part.cells.has(cell);
        assert.equal(value, isShown || isUntouched ? values.get(cell) : null, `cell ${cell}, cycle ${cycle}, part from ${first}`);
    }
}

test("in parts of every example nothing is said that the whole trace doesn't say", () => {
    let parts = 0;
    for (const folder of exampleTraces()) {
        const text = textOf(folder, "expected");
        const whole = historyOf(text);
        const { count } = whole.trace;
        for (let from = 1; from < count; from += Math.max(1, Math.floor(count / 12))) {
            const to = from + Math.floor((count - from) / 2);
            const part = historyOf(partOf(text, from, to));
            part.acts.forEach((it) => checkAct(it, whole));
            assert.deepEqual(part.acts.map((it) => [it.cycle, it.module]), whole.acts.filter((it) => it.cycle >= from && it.cycle <= to).map((it) => [it.cycle, it.module]));
            for (let cycle = from; cycle <= to && cycle < count; cycle++) {
                checkCells(part, whole, cycle);
                assert.equal(part.overview.open[cycle - from], whole.overview.open[cycle], `${folder}, cycle ${cycle} from ${from}`);
                assert.equal(part.overview.acts[cycle - from], whole.overview.acts[cycle]);
            }
            parts += 1;
        }
    }
    assert.ok(parts > 200, `${parts} parts`);
});

test("the stories and sentences of a part say what isn't known", () => {
    const part = historyOf(partOf(textOf(example("two_level_tree"), "expected"), 6, 9));
    const [first] = part.requests;
    assert.equal(viewer.nameOf(first).endsWith(".?"), true);
    assert.match(viewer.storyOf(part, first)[0].happenings.join(), /issued before this part/);
    assert.equal(viewer.explanationOf(part.acts[0]), "cycle 6 module 0 cell 0 [s1x0 [s0x0 2.? < 0.?] < [s0x2 3.? < 1.?]]");
    assert.deepEqual(viewer.replay(part.acts[0]).map((it) => it.reply), [0, 3, 4, 8]);
    const said = viewer.sentencesOf(part, part.trace.cycle(6), null).map((it) => it.map((one) => one.text ?? one).join(""));
    assert.match(said[0], /^This part begins with this cycle/);
    assert.match(said[1], /^Module 0 serves 2@0 faa 10/);
    assert.equal(viewer.movesText(null), "What moved isn't known.");
});

test("the requests of a part have no number, but for those that the steps of their PE name", () => {
    const names = (history) => history.requests.map((it) => viewer.nameOf(it));
    const text = partOf(textOf(example("open_cell_stall"), "expected"), 5, 10);
    const whole = historyOf(text);
    assert.deepEqual(names(whole), ["0.?", "0.?"]);
    const steps = STEPS.open_cell_stall.split("\n").filter((it) => !/^[0-4] /.test(it)).join("\n");
    new viewer.Execution(whole).take("steps", steps);
    // the first by its reply in cycle 8, the second by its issue
    assert.deepEqual(names(whole), ["0.0", "0.1"]);
    const begun = new viewer.History(traceOf(text));
    begun.advance(2);
    new viewer.Execution(begun).take("steps", steps);
    begun.advance(Infinity);
    assert.deepEqual(names(begun), ["0.0", "0.1"]);
    const end = historyOf(partOf(textOf(example("open_cell_stall"), "expected"), 5, 6));
    new viewer.Execution(end).take("steps", steps);
    assert.deepEqual(names(end), ["0.?"]);
});

test("steps of a part say nothing of the run's end, but have to issue what the part issues", () => {
    const part = () => new viewer.Execution(historyOf(partOf(textOf(example("open_cell_stall"), "expected"), 5, 8)));
    const steps = "8 reply 0 r3=0 0.0@0\n8 step 0 4 faa r4 r0 r2 0.1@0 faa 1\n";
    const execution = part();
    execution.take("steps", steps);
    assert.deepEqual(execution.history.requests.map((it) => viewer.nameOf(it)), ["0.0", "0.1"]);
    assert.deepEqual([execution.registersAt(0, 8)[3].value, execution.registersAt(0, 8)[4].value], [0, null]);
    assert.throws(() => part().take("steps", steps.replace("0.1@0", "0.1@1")), { expected: "PE 0 issues a request to cell 0 in cycle 8 of the trace, and not by them" });
    // a part in which no PE steps says nothing of registers either
    const quiet = new viewer.Execution(historyOf(partOf(textOf(example("open_cell_stall"), "expected"), 10, 12)));
    quiet.take("steps", "");
    assert.equal(quiet.registersAt(0, 10)[3].value, null);
    // those that go on to the end of the run have to give its registers
    assert.throws(() => part().take("steps", `${steps}9 step 0 5 halt\n13 reply 0 r4=2 0.1@0\n`), { expected: "by them r4 of PE 0 is 2, and at the end of the trace it is 1" });
});

test("a part without states or without a cycle is refused in its own words", () => {
    const faultOf = (text) => {
        try {
            return traceOf(text) && null;
        } catch (fault) {
            return `${fault.line}: ${fault.expected}`;
        }
    };
    assert.match(faultOf(EVENTS_ALONE), /^2: a part with its whole state \(--only all\)/);
    assert.match(faultOf(NO_CYCLE), /^3: cycle 90: this part has no cycle, since the run ended before it/);
    assert.match(faultOf("ultra trace 2\npart 3 x all\n"), /^2: the number of a cycle/);
    assert.match(faultOf("ultra trace 2\npart 3 4 some\n"), /^2: 'all', 'events' or 'end'/);
    assert.match(faultOf(PARTS[0][3].replace("cycle 5", "cycle 4")), /^3: 'cycle 5'/);
});

test("a text that was cut off says whether in a line, in a cycle, in its end, or before it", () => {
    const text = textOf(example("two_level_tree"), "expected");
    const cutAt = (length) => new viewer.OpenTrace("cut", bytesOf(text.slice(0, length)));
    const kinds = [text.indexOf("wait 1 0") + 5, text.indexOf("wait 1 0"), text.indexOf("cycle 6"), text.indexOf("pe 2")].map((it) => {
        const open = cutAt(it);
        const { isInLine, isInCycle } = open.trace.cut;
        return [isInLine, isInCycle, open.isLastWhole];
    });
    assert.deepEqual(kinds.map((it) => it.slice(0, 2)), [[true, true], [false, true], [false, true], [false, false]]);
    assert.deepEqual([kinds[1][2], kinds[2][2]], [false, true]);
});
