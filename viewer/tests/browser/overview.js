// The strip under the picture: a click or a drag goes to a cycle.
"use strict";

const assert = require("node:assert/strict");

const PLACE = `(() => { const { left, top, width, height } = document.querySelector(".strip-area").getBoundingClientRect(); return { left, top, width, height }; })()`;

module.exports = async (checks) => {
    const tab = await checks.tabWithExample("two_level_tree", "#cycle=3");
    const { left, top, width, height } = await tab.evaluate(PLACE);
    const mouse = (what, part) => tab.mouse(what, left + part * width, top + height / 2);

    await checks.check("the strip says the numbers of the cycle, and marks it", async () => {
        assert.deepEqual(await tab.texts(".series b"), ["4", "2", "0"]);
        assert.equal(await tab.evaluate("document.querySelector('.strip-mark').style.left"), "30%");
    });
    await checks.check("a click in the strip goes to a cycle, and a drag to each that it crosses", async () => {
        await mouse("pressed", 0.66);
        assert.equal(await tab.evaluate("viewer.app.cycle"), 6);
        await mouse("moved", 0.98);
        assert.equal(await tab.evaluate("viewer.app.cycle"), 9);
        await mouse("released", 0.98);
        assert.deepEqual(await tab.texts(".series b"), ["0", "0", "0"]);
    });
    await checks.check("what is drawn in the strip has the colours of its rows", async () => {
        const found = await tab.evaluate(`(() => { const it = document.querySelector(".strip canvas"); const { data } = it.getContext("2d").getImageData(0, 0, it.width, it.height);
            const colours = new Set(); for (let at = 0; at < data.length; at += 4) if (data[at + 3] === 255) colours.add([...data.slice(at, at + 3)].join(" ")); return [...colours].sort(); })()`);
        assert.deepEqual(found, ["11 98 164", "123 63 160", "27 122 61"]);
    });
    await checks.checkQuiet("the strip", tab);
};
