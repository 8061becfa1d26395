// A click on a request shows its story, and one on an act its tree and its serial order.
"use strict";

const assert = require("node:assert/strict");
const { example, textOf } = require("../support.js");

function entry(text) {
    return `[...document.querySelectorAll("#network .entry")].find((it) => it.querySelector("title").textContent === ${JSON.stringify(text)})`;
}

/** The rows of a story, with a stroke where a line ends. */
const ROWS = `[...document.querySelectorAll(".story tbody tr")].map((row) =>
    [...row.children].map((it) => it.innerText.replace(/\\n/g, " | ")))`;

module.exports = async (checks) => {
    const tab = await checks.tabWithExample("two_level_tree", "#cycle=8");

    await checks.check("the story of a request, by a click on its reply", async () => {
        await tab.clickOn(entry("rep 0 2: 1@0 = 8"));
        assert.equal(await tab.text("#story h2"), "Request 1.0");
        const rows = await tab.evaluate(ROWS);
        assert.deepEqual(rows, [
            ["2", "PE 1 issues it | pni 1: 1@0 faa 2"],
            ["3", "it meets 3.0 at stage 0, position 2, which goes on for both | wait 0 2: 3@0 same 1 plus 4"],
            ["4 to 5", "inside 3.0, it meets 2.0 at stage 1, position 0 | wait 0 2: 3@0 same 1 plus 4"],
            ["6 to 7", "module 0 serves it | wait 0 2: 3@0 same 1 plus 4"],
            ["8", "the reply is split | rep 0 2: 1@0 = 8"],
            ["9", "PE 1 gets 8"],
        ]);
        await tab.wait("location.hash === '#cycle=8&request=1.0'");
    });

    await checks.check("a cycle of a story leads there, and what it names is marked in the picture", async () => {
        await tab.clickOn("[...document.querySelectorAll('.story button')].find((it) => it.textContent === '3')");
        assert.equal(await tab.evaluate("viewer.app.cycle"), 3);
        const marked = await tab.texts("#network .entry.selected title");
        assert.deepEqual(marked, ["req 0 2: 3@0 faa 6 *", "wait 0 2: 3@0 same 1 plus 4"]);
    });

    await checks.check("a cycle of a story that is pressed keeps the focus, and Close gives it to the picture", async () => {
        await tab.evaluate("[...document.querySelectorAll('.story button')].find((it) => it.textContent === '6').focus()");
        await tab.press(" ");
        assert.equal(await tab.evaluate("viewer.app.cycle"), 6);
        assert.equal(await tab.evaluate("document.activeElement.textContent"), "6");
        await tab.evaluate("document.querySelector('#close-story').focus()");
        await tab.press(" ");
        assert.equal(await tab.evaluate("document.querySelector('#story').hidden"), true);
        assert.equal(await tab.evaluate("document.activeElement.id"), "scroller");
    });

    await checks.check("the tree and the order of an act, by a click on it", async () => {
        await tab.evaluate("viewer.app.goTo(6)");
        await tab.clickOn(entry("act 0 2@0 faa 10 = 0 now 10"));
        assert.equal(`${await tab.text("#story .explanation")}\n`, textOf(example("two_level_tree"), "explain"));
        const order = await tab.texts(".order tbody code");
        assert.equal(order.map((it) => `${it}\n`).join(""), textOf(example("two_level_tree"), "order"));
        assert.deepEqual(await tab.texts(".tree .leaf"), ["2.0 faa 3 → 0", "0.0 faa 1 → 3", "3.0 faa 4 → 4", "1.0 faa 2 → 8"]);
        assert.deepEqual(await tab.texts(".tree .operation"), ["faa 4", "faa 6", "faa 10"]);
        await tab.wait("location.hash === '#cycle=6&act=6.0'");
    });

    await checks.check("a leaf of the tree leads to its request, and Escape in a field closes the story", async () => {
        await tab.clickOn("document.querySelector('.tree .leaf')");
        assert.equal(await tab.text("#story h2"), "Request 2.0");
        await tab.evaluate("document.querySelector('#cycle').focus()");
        await tab.press("Escape");
        assert.equal(await tab.evaluate("document.querySelector('#story').hidden"), true);
    });

    await checks.check("an address leads to a story, and one to a tree", async () => {
        const request = await checks.tabWithExample("two_level_tree", "#cycle=4&request=3.0");
        assert.equal(await request.text("#story h2"), "Request 3.0");
        const act = await checks.tabWithExample("load_then_store", "#cycle=6&act=6.0");
        assert.equal(await act.text("#story .explanation"), "cycle 6 module 0 cell 0 [s0x0 0.0 > 1.0]");
    });
    await checks.checkQuiet("stories", tab);
};
