// Programs, settings and steps beside a trace.
"use strict";

const test = require("node:test");
const assert = require("node:assert/strict");
const { viewer, example, examples, exampleTraces, textOf, ultra, historyOf } = require("./support.js");
const { STEPS, LATE_STEPS } = require("./reference_texts.js");

/** What the PEs of an example do, with the steps of another simulator. */
function executionOf(name, steps = STEPS[name]) {
    const found = new viewer.Execution(historyOf(textOf(example(name), "expected")));
    found.take("program", textOf(example(name), "prog.s"));
    found.take("settings", textOf(example(name), "conf.toml"));
    found.take("steps", steps);
    return found;
}

function reasonOf(act) {
    try {
        act();
        return null;
    } catch (fault) {
        assert.ok(fault instanceof viewer.Fault, fault.stack);
        return `${fault.isMisfit ? "misfit: " : `${fault.line}: `}${fault.expected}`;
    }
}

test("the first line of a text shows its kind", () => {
    assert.equal(viewer.sortOfText("ultra trace 2\n"), "trace");
    Object.values(STEPS).forEach((it) => assert.equal(viewer.sortOfText(it), "steps"));
    for (const folder of examples()) {
        assert.equal(viewer.sortOfText(textOf(folder, "prog.s")), "program", folder);
    }
    exampleTraces().forEach((it) => assert.equal(viewer.sortOfText(textOf(it, "conf.toml")), "settings", it));
    assert.deepEqual(["# x\n\n[a]\n", '"stages" = 3', "a:\n", "", "; c\nld r1 r2"].map(viewer.sortOfText), ["settings", "settings", "program", "program", "program"]);
});

test("the instructions of every example are those of its listing", () => {
    for (const folder of exampleTraces()) {
        const { instructions } = viewer.readProgram(textOf(folder, "prog.s"));
        const listed = ultra("list", `${folder}/prog.s`).split("\n").filter((it) => it && !it.endsWith(":"));
        assert.deepEqual(instructions.map((it) => it.text), listed, folder);
    }
});

test("the registers of a PE cycle by cycle, with those that are set in the cycle", () => {
    const execution = executionOf("open_cell_stall");
    const known = (cycle) => execution.registersAt(0, cycle).filter((it) => it.value || it.isNew).map((it) => [it.register, it.value, it.isNew]);
    assert.deepEqual([0, 2, 3, 8, 12, 13].map(known), [
        [[1, 0, true]], [[2, 1, true]], [[2, 1, false]], [[2, 1, false], [3, 0, true]], [[2, 1, false]], [[2, 1, false], [4, 1, true]],
    ]);
});

test("the state of a PE: where it is, whether it stalls and on which cell, and that it has stopped", () => {
    const execution = executionOf("open_cell_stall");
    const states = (pe) => [...Array(14).keys()].map((it) => execution.peAt(pe, it)).map(({ place, state, cells }) => `${place} ${state} ${cells}`.trim());
    assert.deepEqual(states(0), [
        "1 running", "2 running", "3 running", "4 running", ...Array(4).fill("4 stalled 0"), "5 running", ...Array(5).fill("5 halted"),
    ]);
    assert.deepEqual(states(1).slice(0, 4), ["1 running", "5 running", "5 halted", "5 halted"]);
    const fault = executionOf("address_fault");
    assert.deepEqual([2, 3, 8].map((it) => fault.peAt(1, it).state), ["running", "f1", "f1"]);
    const barrier = executionOf("barrier");
    assert.deepEqual(barrier.peAt(0, 10).cells, [8]);
});

test("how many PEs stall in each cycle", () => {
    const { stalled } = executionOf("open_cell_stall").history.overview;
    assert.deepEqual([...stalled], [0, 0, 0, 0, 1, 1, 1, 1, 0, 0, 0, 0, 0, 0]);
    const limit = executionOf("cycle_limit").history.overview;
    assert.equal(limit.stalled.length, 4);
});

test("steps from a later cycle on: what came before isn't known", () => {
    const execution = executionOf("open_cell_stall", LATE_STEPS);
    assert.equal(execution.registersAt(0, 5)[2].value, null);
    assert.equal(execution.registersAt(0, 8)[3].value, 0);
    assert.equal(execution.peAt(1, 5).state, "unknown");
    assert.equal(execution.history.overview.stalled, null);
});

test("the listing has each place once, with the program's lines or with what the steps name", () => {
    const { listing } = executionOf("open_cell_stall");
    assert.deepEqual(listing.map((it) => [it.place, it.line]), [[0, 2], [1, 3], [2, 4], [3, 5], [4, 6], [5, 8]]);
    assert.equal(listing[1].text, "jnz r1 end          ; the other PEs halt");
    const alone = new viewer.Execution(historyOf(textOf(example("open_cell_stall"), "expected")));
    alone.take("steps", STEPS.open_cell_stall);
    assert.deepEqual(alone.listing.map((it) => it.text), ["pid r1", "jnz r1 L5", "li r2 1", "faa r3 r0 r2", "faa r4 r0 r2", "halt"]);
});

test("every stored text of steps belongs to its trace, and to no other", () => {
    for (const name of Object.keys(STEPS)) {
        executionOf(name);
        for (const other of Object.keys(STEPS).filter((it) => it !== name)) {
            const execution = new viewer.Execution(historyOf(textOf(example(other), "expected")));
            assert.match(reasonOf(() => execution.take("steps", STEPS[name])) ?? "", /^misfit: /, `${name} with ${other}`);
        }
    }
});

test("texts that don't belong to a trace, or aren't what they seem, say why", () => {
    const good = STEPS.open_cell_stall;
    const refuse = (steps) => reasonOf(() => executionOf("open_cell_stall", steps));
    assert.equal(refuse(good.replace("8 reply 0 r3=0", "8 reply 0 r3=5")), "misfit: by them r3 of PE 0 is 5, and at the end of the trace it is 0");
    assert.equal(refuse(good.replace("9 step 0 5 halt\n", "")), "misfit: by them PE 0 runs on, and at the end of the trace it is halted");
    assert.equal(refuse(good.replace("2 step 0 2 li r2 1 r2=1", "2 step 0 2 li r2 01 r2=1")), "misfit: in cycle 2 PE 0 executes 'li r2 01' at 2, where the program has 'li r2 1'");
    assert.equal(refuse(good.replace("step 1 0", "step 7 0")), "misfit: they have a PE 7, and the trace has 2");
    assert.match(refuse(good.replace("1 step 0 1", "1 stop 0 1")), /^3: 'CYCLE step PE/);
    assert.match(refuse(good.replace("13 reply", "3 reply")), /^11: cycles that grow/);
    assert.match(refuse(good.replace("8 reply 0 r3=0", "8 reply 0 r16=0")), /^8: a register below 16/);
    assert.match(refuse(good.slice(0, -3)), /the end of the line/);
    const execution = executionOf("open_cell_stall");
    assert.match(reasonOf(() => execution.take("settings", "stages = 2\n")), /^misfit: they have 2 stages, and the trace has 1/);
    assert.match(reasonOf(() => execution.take("program", "halt\n")), /^misfit: in cycle 0 PE 0 executes 'pid r1' at 0/);
    assert.match(reasonOf(() => execution.take("program", "jmp nowhere\n")), /^1: a label that the text has/);
});

test("with settings the cells that they set are known before their first act", () => {
    const settings = viewer.readSettings("stages = 1\nreply_places = 1_6 # more\ninitial = [\n  [3, 7], [0, 5],\n]\n");
    assert.deepEqual([settings.stages, settings.reply_places, settings.open], [1, 16, 2]);
    assert.deepEqual([...settings.initial], [[3, 7], [0, 5]]);
    const history = historyOf(textOf(example("load_then_store"), "expected"));
    assert.deepEqual(viewer.cellsAt(history, 0), []);
    const known = viewer.cellsAt(history, 0, viewer.readSettings(textOf(example("load_then_store"), "conf.toml")));
    assert.deepEqual(known.map((it) => [it.cell, it.value]), [[0, 5]]);
});
