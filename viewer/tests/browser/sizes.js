// Machines with one, two, three and six stages: pictures to look at, and how long a step takes.
"use strict";

const assert = require("node:assert/strict");
const path = require("node:path");
const { example, ultra, hasProgram } = require("../support.js");

const STEPS = 30;
const SCALES = [
    ["at full size", "viewer.app.changeForm('detail'); viewer.setScale(viewer.app, 1)"],
    ["the whole picture", "viewer.setScale(viewer.app, viewer.wholeScale(viewer.app))"],
    ["without empty units", "viewer.app.changeForm('folded'); viewer.setScale(viewer.app, 1)"],
    ["compact", "viewer.app.changeForm('compact')"],
];

/** The processor time of each of the first steps, in milliseconds, the least first. */
async function costsOfSteps(tab) {
    await tab.cost("viewer.app.goTo(0)");
    const costs = [];
    while (costs.length < STEPS) {
        costs.push(await tab.cost("viewer.app.stepBy(1)"));
    }
    return costs.sort((a, b) => a - b);
}

/** The compact picture: it fits, shows what each list has, and leads to the detail. */
async function checkCompact(checks, tab) {
    await checks.check("at 64 PEs the compact picture is shown, and all of it", async () => {
        assert.equal(await tab.evaluate("viewer.app.form"), "compact");
        const [scroller, picture] = await tab.evaluate(`["#scroller", "#compact-network"].map((it) => { const { right, bottom } = document.querySelector(it).getBoundingClientRect(); return { right, bottom }; })`);
        assert.ok(picture.right <= scroller.right && picture.bottom <= scroller.bottom && scroller.right <= 1280 && scroller.bottom <= 800);
    });
    await checks.check("the bars of the compact picture are as long as the lists", async () => {
        const bars = await tab.evaluate("[1, 2, 3, 4].map((it) => (document.querySelector(`#compact-network .level-${it}`).getAttribute('d') ?? '').split('M').length - 1)");
        const lengths = await tab.evaluate("[...viewer.app.trace.cycle(viewer.app.cycle).places.values()].map((it) => it.length)");
        assert.deepEqual(bars, [1, 2, 3, 4].map((level) => lengths.filter((it) => Math.min(4, it) === level).length));
        assert.ok(bars[0] > 10);
    });
    await checks.check("a chosen request's way is drawn in the compact picture", async () => {
        await tab.evaluate("viewer.app.showRequest(viewer.app.history.requests[3])");
        const way = await tab.evaluate("document.querySelector('#compact-network .way').getAttribute('d')");
        // PE, six queues, module in and out, six queues back, PE
        assert.equal(way.split(/[ML]/).length - 1, 16);
        await checks.picture(tab, "six_stages_way");
        await tab.evaluate("viewer.app.closeStory()");
    });
    await checks.check("a click in the compact picture leads to the detail", async () => {
        await tab.evaluate("viewer.app.goTo(4)");
        const { x, y } = await tab.evaluate(`(() => { const svg = document.querySelector("#compact-network"); const box = viewer.app.pane.compact.boxOf(viewer.placeOf(viewer.REQ, 1, 40));
            const at = new DOMPoint(box.x + box.w / 2, box.y + box.h / 2).matrixTransform(svg.getScreenCTM()); return { x: at.x, y: at.y }; })()`);
        await tab.clickAt(x, y);
        assert.equal(await tab.evaluate("viewer.app.form"), "detail");
        const isSeen = await tab.evaluate("viewer.app.picture.seen()(viewer.app.picture.layout.boxes.get(viewer.placeOf(viewer.REQ, 1, 40)))");
        assert.ok(isSeen);
        await tab.press("o");
        assert.equal(await tab.evaluate("viewer.app.form"), "compact");
    });
}

async function sixStages(checks) {
    const settings = checks.file("six.toml", "stages = 6\n");
    const text = ultra("run", settings, path.join(example("tickets"), "prog.s"));
    const tab = await checks.tabWith(checks.file("six", text), "#cycle=4");
    await checks.picture(tab, "six_stages");
    await checkCompact(checks, tab);
    await checks.check("at 64 PEs a step takes less than 50 ms, at each scale, and without empty units", async () => {
        for (const [name, set] of SCALES) {
            await tab.evaluate(set);
            const costs = await costsOfSteps(tab);
            console.log(`64 PEs, ${name}: a step takes ${costs[STEPS >> 1].toFixed(1)} ms of processor time, at most ${costs.at(-1).toFixed(1)} ms`);
            assert.ok(costs[STEPS >> 1] < 50, `${costs[STEPS >> 1]} ms`);
        }
    });
    await tab.evaluate("viewer.app.changeForm('detail'); viewer.app.goTo(6); viewer.setScale(viewer.app, viewer.wholeScale(viewer.app))");
    await checks.picture(tab, "six_stages_whole");
    await tab.evaluate("viewer.app.goTo(9); viewer.setScale(viewer.app, 0.85)");
    await tab.press("f");
    await tab.evaluate("viewer.app.showAct(viewer.app.history.acts[0])");
    await checks.picture(tab, "six_stages_folded");
    await checks.checkQuiet("six stages", tab);
}

/** The picture that the README shows. */
async function pictureOfReadme(checks) {
    const tab = await checks.tabWithExample("two_level_tree", "#cycle=3", 530);
    await checks.picture(tab, "viewer");
}

module.exports = async (checks) => {
    await pictureOfReadme(checks);
    for (const [name, cycle, more] of [
        ["combined_pair", 3, ""],
        ["two_level_tree", 3, ""],
        ["two_level_tree", 8, "&request=1.0"],
        ["two_level_tree", 6, "&act=6.0"],
        ["tickets", 5, ""],
        ["tickets", 6, "&act=6.0"],
    ]) {
        const tab = await checks.tabWithExample(name, `#cycle=${cycle}${more}`);
        await checks.picture(tab, `${name}_${cycle}`);
        await checks.checkQuiet(name, tab);
    }
    if (hasProgram()) {
        await sixStages(checks);
    } else {
        console.log("six stages are left out, since the program isn't built");
    }
};
