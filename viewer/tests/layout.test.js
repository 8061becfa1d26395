// Where things are drawn: each in a place of its own, and each wire from one unit to another.
"use strict";

const test = require("node:test");
const assert = require("node:assert/strict");
const { viewer, example, textOf, historyOf } = require("./support.js");

function overlap(a, b) {
    return a.x < b.x + b.w && b.x < a.x + a.w && a.y < b.y + b.h && b.y < a.y + a.h;
}

function unitsOf(layout) {
    return [...layout.pes.values(), ...layout.modules.values(), ...layout.switches.values()];
}

function checkApart(boxes) {
    boxes.forEach((a, index) => boxes.slice(index + 1).forEach((b) => assert.ok(!overlap(a, b), JSON.stringify([a, b]))));
}

test("units lie apart, and so do the lists in them, in machines of each size", () => {
    for (let stages = 1; stages <= 6; stages++) {
        const layout = new viewer.Layout(new viewer.Net(stages), new viewer.Shape());
        checkApart(unitsOf(layout));
        checkApart([...layout.boxes.values()]);
        assert.equal(layout.boxes.size, layout.net.size * (3 + 3 * stages));
    }
});

function isInside(box, unit) {
    const isWithin = (least, size, start, length) => least >= start && least + size <= start + length;
    return isWithin(box.x, box.w, unit.x, unit.w) && isWithin(box.y, box.h, unit.y, unit.h);
}

test("each list lies in its unit, with few entries and with many", () => {
    for (const count of [1, 2, 4]) {
        const shape = new viewer.Shape();
        shape.counts = shape.counts.map(() => count);
        const layout = new viewer.Layout(new viewer.Net(3), shape);
        for (const [place, box] of layout.boxes) {
            const units = unitsOf(layout).filter((it) => isInside(box, it));
            assert.equal(units.length, 1, `${viewer.placeText(place)} with ${count}`);
        }
    }
});

test("every wire is drawn: to two queues from each list, and to one where a PE or a module is next", () => {
    for (let stages = 1; stages <= 6; stages++) {
        const layout = new viewer.Layout(new viewer.Net(stages), new viewer.Shape());
        const { requests, replies } = viewer.wirePaths(layout, () => true);
        assert.equal(requests.length, layout.net.size * (2 * stages + 1));
        assert.equal(replies.length, layout.net.size * (2 * stages + 1));
    }
});

test("without empty units every move of a cycle is drawn all the same", () => {
    for (const name of ["tickets", "queue", "identity_not_cell", "narrow_reply_queues"]) {
        const { trace, shape } = historyOf(textOf(example(name), "expected"));
        for (let number = 0; number < trace.count; number++) {
            const cycle = trace.cycle(number);
            const step = viewer.stepOf(trace.net, trace.before(number), cycle);
            const layout = new viewer.Layout(trace.net, shape, viewer.visibleUnits(trace.net, cycle, step));
            checkApart(unitsOf(layout));
            step.moves.forEach((it) => assert.ok(viewer.wayOf(layout, it), `${name}, cycle ${number}`));
            [...cycle.places.keys()].forEach((it) => assert.ok(layout.boxes.has(it)));
        }
    }
});
