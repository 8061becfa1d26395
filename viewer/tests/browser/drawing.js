// What is drawn in each cycle is what the trace says of it.
"use strict";

const assert = require("node:assert/strict");
const { viewer, example, textOf, traceOf } = require("../support.js");

const DRAWN = ["combined_pair", "two_level_tree", "load_then_store", "identity_not_cell", "tickets"];

/** The lines of a cycle as the picture names its entries. */
function expectedTitles(cycle) {
    const titlesOf = ([place, list]) => list.map((it) => `${viewer.placeText(place)}: ${viewer.entryText(it)}`);
    const titles = [...cycle.places].flatMap(titlesOf);
    const got = cycle.got.map((it) => `got ${viewer.replyText(it)}`);
    return [...titles, ...got, ...cycle.acts.map(viewer.actText)].sort();
}

/** Boxes with texts that are wider than they, or that lie on another entry. */
const CROWDED = `(() => {
    const boxes = [...document.querySelectorAll("#network .entry")].map((it) => {
        const [rect, text] = ["rect", "text"].map((name) => it.querySelector(name).getBBox());
        return { name: it.textContent, rect, text };
    });
    const isWide = ({ rect, text }) => text.x + text.width > rect.x + rect.width + 0.5;
    const meets = (start, size, other, length) => start < other + length - 1 && other < start + size - 1;
    const isOn = (a, b) => meets(a.x, a.width, b.x, b.width) && meets(a.y, a.height, b.y, b.height);
    const pairs = boxes.flatMap((a, index) => boxes.slice(index + 1).map((b) => [a, b]));
    const crowded = pairs.filter(([a, b]) => isOn(a.rect, b.rect)).map(([a, b]) => a.name + " on " + b.name);
    return [...boxes.filter(isWide).map((it) => it.name), ...crowded];
})()`;

module.exports = async (checks) => {
    for (const name of DRAWN) {
        const trace = traceOf(textOf(example(name), "expected"));
        const tab = await checks.tabWithExample(name);
        await tab.evaluate("viewer.setScale(viewer.app, Math.max(0.5, Math.min(1, viewer.wholeScale(viewer.app))))");
        await checks.check(`${name}: the entries of each cycle`, async () => {
            for (let cycle = 0; cycle < trace.count; cycle++) {
                await tab.evaluate(`viewer.app.goTo(${cycle})`);
                const titles = await tab.texts("#network .entry title");
                const more = await tab.texts("#network .more title");
                assert.deepEqual([...titles, ...more].sort(), expectedTitles(trace.read(cycle)), `cycle ${cycle}`);
                assert.deepEqual(await tab.evaluate(CROWDED), [], `cycle ${cycle}`);
                const lines = (await tab.text("#text")).split("\n").map((it) => it.slice(8));
                assert.equal(lines.map((it) => `${it}\n`).join(""), trace.text(cycle));
            }
        });
        await checks.checkQuiet(name, tab);
    }

    await checks.check("without empty units the same entries are drawn, and fewer units", async () => {
        const trace = traceOf(textOf(example("tickets"), "expected"));
        const tab = await checks.tabWithExample("tickets", "#view=folded&cycle=4");
        await tab.evaluate("viewer.setScale(viewer.app, 0.6)");
        for (let cycle = 0; cycle < trace.count; cycle++) {
            await tab.evaluate(`viewer.app.goTo(${cycle})`);
            assert.deepEqual((await tab.texts("#network .entry title")).sort(), expectedTitles(trace.read(cycle)));
            assert.deepEqual(await tab.evaluate(CROWDED), []);
        }
        await tab.evaluate("viewer.app.goTo(6)");
        assert.ok((await tab.evaluate("document.querySelectorAll('.unit').length")) < 14);
    });

    await checks.check("what the picture shows is also said in words", async () => {
        const tab = await checks.tabWithExample("two_level_tree", "#cycle=3");
        assert.deepEqual(await tab.texts("#happenings li"), [
            "At stage 0, position 0, 2.0 (faa 3) and 0.0 (faa 1) combine: 2@0 faa 4 goes on.",
            "At stage 0, position 2, 3.0 (faa 4) and 1.0 (faa 2) combine: 3@0 faa 6 goes on.",
        ]);
        await tab.evaluate("viewer.app.goTo(9)");
        assert.deepEqual(await tab.texts("#cells li"), ["● cell 0: 10"]);
        assert.match(await tab.text("#ending-text"), /^PE 0: halted, at instruction 3/);
    });
};
