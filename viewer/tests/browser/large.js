// A large trace, by itself and with its steps: how long it takes to open, and to step in it in each form.
"use strict";

const assert = require("node:assert/strict");

const STEPS = 25;
const MOST_OF_STEP = 60;
const FORMS = ["detail", "folded", "compact"];

const secondsSince = (start) => (Date.now() - start) / 1000;

/** Measures steps to cycles that are spread over the trace. Gives the middle of their costs. */
async function middleOfSteps(tab, name, measure) {
    const count = await tab.evaluate("viewer.app.trace.count");
    const times = [];
    for (let step = 0; step < STEPS; step++) {
        times.push(await measure(`viewer.app.goTo(${Math.floor((step * count) / STEPS)})`));
    }
    times.sort((a, b) => a - b);
    const [middle, most] = [times[STEPS >> 1], times.at(-1)];
    console.log(`${name}: a step takes ${middle.toFixed(0)} ms, at most ${most.toFixed(0)} ms`);
    return middle;
}

async function checkForms(checks, tab, name) {
    for (const form of FORMS) {
        await tab.evaluate(`viewer.app.changeForm("${form}")`);
        await checks.check(`steps anywhere in it, ${name}, ${form}`, async () => {
            const middle = await middleOfSteps(tab, `${name}, ${form}, in processor time`, (act) => tab.cost(act));
            assert.ok(middle <= MOST_OF_STEP, `${middle} ms`);
        });
        await checks.picture(tab, `large_${form}`);
    }
}

module.exports = async (checks) => {
    const files = checks.options.large;
    if (!files) {
        return;
    }
    const tab = await checks.tab();
    await checks.check("a large trace opens within 10 seconds", async () => {
        const start = Date.now();
        await tab.choose(files[0]);
        await tab.wait("viewer.app.trace", 60);
        const megabytes = (await tab.evaluate("viewer.app.trace.bytes.length")) / 1e6;
        console.log(`${megabytes.toFixed(0)} MB: opened in ${secondsSince(start).toFixed(1)} s, ${await tab.evaluate("viewer.app.trace.count")} cycles`);
        assert.ok(secondsSince(start) < 10);
    });
    await tab.evaluate("viewer.app.hasMotion = false");
    await middleOfSteps(tab, "by the clock, while its history is worked out", (act) => tab.time(act));
    const start = Date.now();
    await tab.wait("viewer.app.history.isDone", 300);
    console.log(`its history was done after ${secondsSince(start).toFixed(1)} s more`);
    await checkForms(checks, tab, "its history is done");
    if (files.length > 1) {
        const since = Date.now();
        await tab.choose(files);
        await tab.wait("viewer.app.open?.execution?.steps", 300);
        console.log(`with what belongs to it: opened in ${secondsSince(since).toFixed(1)} s`);
        await tab.wait("viewer.app.history.isDone", 300);
        await tab.evaluate("viewer.app.hasMotion = false");
        await checkForms(checks, tab, "with its steps");
    }
    await checks.checkQuiet("a large trace", tab);
};
