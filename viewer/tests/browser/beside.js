// Two traces beside each other: with combining and without it, at one cycle or at one event.
"use strict";

const assert = require("node:assert/strict");
const path = require("node:path");
const { spawnSync } = require("node:child_process");
const { pathToFileURL } = require("node:url");
const { FOLDER, example } = require("../support.js");

module.exports = async (checks) => {
    const files = ["combined_pair", "uncombined_pair", "four_to_one_cell"].map((it) => path.join(example(it), "expected"));
    const written = spawnSync(path.join(FOLDER, "page"), files, { encoding: "utf8", maxBuffer: 1 << 28 });
    const address = pathToFileURL(checks.file("beside.html", written.stdout)).href;
    const tab = await checks.tab(`${address}#trace=combined_pair%2Fexpected&beside=uncombined_pair%2Fexpected&cycle=5`);
    const titles = () => tab.texts(".title");

    await checks.check("two traces are at the same cycle, and one that has ended stays at its last", async () => {
        assert.deepEqual(await titles(), ["combined_pair/expected: cycle 5 of 7", "uncombined_pair/expected: cycle 5 of 8"]);
        await tab.evaluate("viewer.app.goTo(8)");
        assert.deepEqual(await titles(), ["combined_pair/expected: cycle 7, its last", "uncombined_pair/expected: cycle 8, its last"]);
        assert.equal(await tab.evaluate("document.querySelector('#slider').max"), "8");
    });
    await checks.check("the strip shows both, with one scale", async () => {
        assert.deepEqual(await tab.texts(".strip-name"), ["combined_pair/expected", "uncombined_pair/expected"]);
        await tab.evaluate("viewer.app.goTo(6)");
        assert.deepEqual(await tab.texts(".series b"), ["2", "0", "0", "2", "0", "1"]);
        const marks = await tab.evaluate("[...document.querySelectorAll('.strip-mark')].map((it) => parseFloat(it.style.left).toFixed(1))");
        assert.deepEqual(marks, ["66.7", "66.7"]);
    });
    await checks.check("the texts are those of the trace that is chosen", async () => {
        await tab.evaluate("viewer.app.goTo(3)");
        assert.match(await tab.text("#happenings"), /combine/);
        await tab.click("#title-2");
        assert.match(await tab.text("#facts"), /^uncombined_pair/);
        assert.doesNotMatch(await tab.text("#happenings"), /combine/);
        await tab.evaluate("document.activeElement.blur()");
        await tab.press("x");
        assert.match(await tab.text("#facts"), /^combined_pair/);
    });
    await checks.check("two traces are at the same number of answers", async () => {
        await tab.enter("#together", "answered");
        await tab.evaluate("viewer.app.goTo(7)");
        assert.deepEqual(await titles(), ["combined_pair/expected: cycle 7, its last", "uncombined_pair/expected: cycle 8, its last"]);
        await tab.evaluate("viewer.app.activate(1); viewer.app.goTo(7)");
        assert.deepEqual((await titles())[0], "combined_pair/expected: cycle 7, its last");
        await tab.evaluate("viewer.app.goTo(6)");
        assert.deepEqual((await titles())[0], "combined_pair/expected: cycle 0 of 7");
        await tab.wait("location.hash.includes('together=answered')");
    });
    await checks.check("another size beside it, by the choice; and none", async () => {
        await tab.enter("#together", "cycle");
        await tab.enter("#besides", "four_to_one_cell/expected");
        assert.match((await titles())[1], /^four_to_one_cell/);
        await tab.evaluate("viewer.app.goTo(3)");
        await checks.picture(tab, "beside");
        await tab.click("#close-beside");
        assert.equal(await tab.evaluate("document.querySelector('#pane-2').hidden"), true);
        assert.equal(await tab.evaluate("viewer.app.shown.length"), 1);
    });
    await checks.check("a file that isn't a trace isn't shown beside one, and says why", async () => {
        const other = await checks.tabWithExample("combined_pair");
        await other.choose(checks.file("wrong", "ultra trace 2\ncycle 1\n"), "#file-beside");
        await other.wait("!document.querySelector('#notice').hidden");
        assert.match(await other.text("#notice"), /^wrong isn't a trace\. Line 2: expected 'cycle 0'\. So it isn't shown beside expected\.$/);
        await other.choose(path.join(example("uncombined_pair"), "expected"), "#file-beside");
        await other.wait("viewer.app.shown.length === 2");
    });
    await checks.checkQuiet("two traces", tab);
};
