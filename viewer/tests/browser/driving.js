// Buttons, keys, slider and fields.
"use strict";

const assert = require("node:assert/strict");

module.exports = async (checks) => {
    const tab = await checks.tabWithExample("two_level_tree");
    const cycle = () => tab.evaluate("viewer.app.cycle");
    const goesTo = async (name, act, expected) =>
        checks.check(name, async () => {
            await act();
            assert.equal(await cycle(), expected);
            assert.equal(await tab.text("#cycle-name"), `${expected}`);
            await tab.wait(`location.hash === "#cycle=${expected}"`);
        });

    await goesTo("button Forward", () => tab.click("#forward"), 1);
    await goesTo("button Back", () => tab.click("#back"), 0);
    await goesTo("button Last", () => tab.click("#last"), 9);
    await goesTo("button First", () => tab.click("#first"), 0);
    await goesTo("button Next combination", () => tab.click("#next-combination"), 3);
    await goesTo("button Next combination again", () => tab.click("#next-combination"), 4);
    await goesTo("button Next act", () => tab.click("#next-act"), 6);
    await tab.evaluate("document.activeElement.blur()");
    await goesTo("key arrow right", () => tab.press("ArrowRight"), 7);
    await goesTo("key arrow left", () => tab.press("ArrowLeft"), 6);
    await goesTo("key Home", () => tab.press("Home"), 0);
    await goesTo("key End", () => tab.press("End"), 9);
    await goesTo("key a backward", () => tab.press("a", { shift: true }), 6);
    await goesTo("key c backward", () => tab.press("c", { shift: true }), 4);
    await goesTo("key a", () => tab.press("a"), 6);
    await goesTo("an event of PE 1", async () => {
        await tab.enter("#event-sort", "pe");
        await tab.enter("#event-number", 1);
        await tab.click("#next-event");
    }, 9);
    await goesTo("no event after the last", () => tab.click("#next-event"), 9);
    await checks.check("that there is no event after it is said", async () => {
        assert.equal(await tab.text("#notice"), "There is none after this cycle.");
    });
    await goesTo("the slider", async () => {
        await tab.enter("#slider", 5, "input");
    }, 5);
    await goesTo("the slider by keys", async () => {
        await tab.evaluate("document.querySelector('#slider').focus()");
        await tab.press("ArrowLeft");
    }, 4);
    await goesTo("key a while the slider has the focus", () => tab.press("a"), 6);
    await goesTo("the field for a cycle", async () => {
        await tab.enter("#cycle", 8);
    }, 8);
    await goesTo("an address", () => tab.evaluate("location.hash = '#cycle=2'; new Promise((it) => setTimeout(it, 100))"), 2);

    await checks.check("space plays to the last cycle, and the button has its name", async () => {
        await tab.evaluate("document.activeElement.blur(); viewer.app.player.cyclesPerSecond = 50");
        await tab.press(" ");
        assert.equal((await tab.text("#play")).trim(), "❚❚ Pause");
        await tab.wait("viewer.app.cycle === 9 && !viewer.app.player.isPlaying");
        assert.equal((await tab.text("#play")).trim(), "▶ Play");
    });

    await checks.check("a button that leads to the last cycle keeps the focus there", async () => {
        await tab.evaluate("viewer.app.goTo(8); document.querySelector('#forward').focus()");
        await tab.press(" ");
        assert.equal(await cycle(), 9);
        await tab.press(" ");
        assert.equal(await cycle(), 9);
        const { id, disabled } = await tab.evaluate("({ id: document.activeElement.id, disabled: document.activeElement.ariaDisabled })");
        assert.deepEqual([id, disabled], ["forward", "true"]);
    });

    await checks.check("a button that has the focus is pressed by space once", async () => {
        await tab.evaluate("document.querySelector('#back').focus()");
        await tab.press(" ");
        assert.equal(await cycle(), 8);
        assert.equal(await tab.evaluate("viewer.app.player.isPlaying"), false);
    });

    await checks.check("zoom, whole and fold by keys", async () => {
        const scale = () => tab.evaluate("viewer.app.picture.scale");
        const before = await scale();
        await tab.press("+");
        assert.ok((await scale()) > before);
        await tab.press("-");
        assert.ok(Math.abs((await scale()) - before) < 0.01);
        await tab.press("f");
        await tab.wait("location.hash === '#cycle=8&view=folded'");
        await tab.press("f");
    });

    await checks.check("every button, field and choice has a name", async () => {
        const found = await tab.controls(["button", "slider", "spinbutton", "combobox", "checkbox"]);
        assert.ok(found.length >= 18, `${found.length} controls`);
        assert.deepEqual(found.filter((it) => !it.name).map((it) => it.role), []);
    });

    await checks.check("the motion of a step ends with the state after it", async () => {
        await tab.evaluate("viewer.app.goTo(2); viewer.app.hasMotion = true");
        await tab.press("ArrowRight");
        assert.equal(await tab.evaluate("document.querySelectorAll('.traveller').length"), 4);
        await tab.wait("document.querySelectorAll('.traveller').length === 0", 5);
        assert.equal(await tab.evaluate("document.querySelectorAll('.moved').length"), 4);
    });

    await checks.check("entries that have arrived are drawn again without their motion", async () => {
        await tab.evaluate("viewer.app.goTo(2)");
        await tab.press("ArrowRight");
        assert.ok((await tab.evaluate("document.getAnimations().length")) > 0);
        await tab.evaluate("viewer.app.draw()");
        assert.equal(await tab.evaluate("document.getAnimations().length"), 0);
    });
    await checks.checkQuiet("driving", tab);
};
