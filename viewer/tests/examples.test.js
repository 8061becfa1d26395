// Every example: its trace is read and written again, and its trees and its serial order are worked
// out from the trace alone.
"use strict";

const test = require("node:test");
const assert = require("node:assert/strict");
const path = require("node:path");
const fs = require("node:fs");
const { viewer, ROOT, exampleTraces, textOf, traceOf, historyOf } = require("./support.js");

for (const folder of exampleTraces()) {
    const name = path.relative(path.join(ROOT, "examples"), folder);
    const text = textOf(folder, "expected");

    test(`the trace of ${name}, read and written again, has the same bytes`, () => {
        assert.equal(viewer.traceText(traceOf(text)), text);
    });

    test(`the trees and the order of ${name} are those of its files`, () => {
        const history = historyOf(text);
        assert.equal(viewer.explainText(history), textOf(folder, "explain"));
        assert.equal(viewer.orderText(history), textOf(folder, "order"));
    });
}

test("all examples with a trace are tried", () => {
    assert.ok(exampleTraces().length >= 29, `${exampleTraces().length} examples`);
    assert.ok(exampleTraces().every((it) => fs.existsSync(path.join(it, "explain"))));
});
