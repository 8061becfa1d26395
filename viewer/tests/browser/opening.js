// Opening traces: by the file chooser, by dropping, with a link; and texts that are refused or were
// cut off.
"use strict";

const assert = require("node:assert/strict");
const path = require("node:path");
const { PAGE } = require("./checks.js");
const { example, textOf } = require("../support.js");

/** Drops a text on the page that is read only after so many milliseconds. */
function dropLate(name, text, milliseconds) {
    return `{
        const bytes = new TextEncoder().encode(${JSON.stringify(text)}).buffer;
        const arrayBuffer = () => new Promise((resolve) => setTimeout(resolve, ${milliseconds}, bytes));
        dispatchEvent(Object.assign(new Event("drop"), { dataTransfer: { files: [{ name: "${name}", arrayBuffer }] } }));
    }`;
}

module.exports = async (checks) => {
    const tree = path.join(example("two_level_tree"), "expected");

    await checks.check("the page opens from the disk", async () => {
        const tab = await checks.tab();
        assert.equal(await tab.text("#welcome h2"), "Watch a trace");
        assert.equal(await tab.evaluate("document.querySelector('#opened').hidden"), true);
        await checks.checkQuiet("the empty page", tab);
    });

    await checks.check("a trace that is dropped on the page is shown", async () => {
        const tab = await checks.tab();
        await tab.drop(tree);
        await tab.wait("viewer.app.trace");
        assert.equal(await tab.text("#facts"), "expected: 10 cycles, 4 PEs. It ends quiet.");
        await checks.checkQuiet("a dropped trace", tab);
    });

    await checks.check("a trace that is chosen is shown, at the cycle of the address", async () => {
        const tab = await checks.tab(`${PAGE}#cycle=3`);
        await tab.choose(tree);
        await tab.wait("viewer.app.trace");
        assert.equal(await tab.text("#cycle-name"), "3");
    });

    await checks.check("a link on an open page sets what is shown, and closes a story that it doesn't name", async () => {
        const tab = await checks.tabWithExample("two_level_tree", "#cycle=4&request=3.0");
        await tab.evaluate("location.hash = '#cycle=2&view=folded'");
        await tab.wait("viewer.app.cycle === 2 && viewer.app.form === 'folded'");
        assert.equal(await tab.evaluate("document.querySelector('#folded').checked"), true);
        assert.equal(await tab.evaluate("document.querySelector('#story').hidden"), true);
        await tab.evaluate("new Promise((it) => setTimeout(it, 400))");
        assert.equal(await tab.evaluate("location.hash"), "#cycle=2&view=folded");
    });

    await checks.check("a file that is read late doesn't replace one that was dropped after it", async () => {
        const tab = await checks.tab();
        await tab.evaluate(`${dropLate("late", textOf(tree), 300)} ${dropLate("early", textOf(tree), 0)}`);
        await tab.evaluate("new Promise((it) => setTimeout(it, 600))");
        assert.match(await tab.text("#facts"), /^early: /);
        await checks.checkQuiet("a file that is read late", tab);
    });

    await checks.check("a text that isn't a trace is refused with its line, and a good one opens after it", async () => {
        const tab = await checks.tab();
        await tab.choose(checks.file("broken", textOf(tree).replace("inp 0: 2@0 faa 10", "inp 0: 2@0 add 10")));
        await tab.wait("!document.querySelector('#refusal').hidden");
        assert.equal(await tab.text("#refusal"), "broken isn't a trace. Line 23: expected 'load', 'store', 'faa' or 'swap'.");
        await tab.choose(tree);
        await tab.wait("viewer.app.trace");
        assert.equal(await tab.evaluate("document.querySelector('#refusal').hidden"), true);
        await checks.checkQuiet("a refused text", tab);
    });

    await checks.check("a text that was cut off is shown up to there, and says so", async () => {
        const text = textOf(tree);
        const tab = await checks.tab();
        await tab.choose(checks.file("cut", text.slice(0, text.indexOf("rep 1 1"))));
        await tab.wait("viewer.app.trace");
        assert.match(await tab.text("#facts"), /^cut: 8 cycles, 4 PEs\. The text was cut off in cycle 7, after its line \d+\. .* 4 is a guess/);
        await tab.click("#last");
        assert.match(await tab.text("#happenings"), /The text was cut off in this cycle/);
        await checks.checkQuiet("a cut text", tab);
    });
};
