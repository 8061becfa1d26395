// For slides and for everybody: pictures as files, paper, dark pages, small screens, keyboard, contrast.
"use strict";

const assert = require("node:assert/strict");
const fs = require("node:fs");
const path = require("node:path");
const { PAGE } = require("./checks.js");

/** Texts whose contrast with what is behind them is less than 4.5, each with its contrast. */
const LOW_CONTRAST = `(() => {
    const part = (it) => (it <= 0.03928 ? it / 12.92 : ((it + 0.055) / 1.055) ** 2.4);
    const light = ([r, g, b]) => 0.2126 * part(r / 255) + 0.7152 * part(g / 255) + 0.0722 * part(b / 255);
    const numbers = (it) => (it.match(/[\\d.]+/g) ?? []).map(Number);
    const colourBehind = (element) => {
        for (let it = element; it; it = it.parentElement) {
            const found = it instanceof SVGElement
                ? [...(it.parentElement?.children ?? [])].filter((other) => other.localName === "rect" && other !== it).map((other) => numbers(getComputedStyle(other).fill))[0]
                : numbers(getComputedStyle(it).backgroundColor);
            if (found?.length === 3 || found?.[3] > 0.9) return found.slice(0, 3);
        }
        return numbers(getComputedStyle(document.body).backgroundColor).slice(0, 3);
    };
    const found = new Map();
    for (const element of document.querySelectorAll("body *")) {
        const hasText = [...element.childNodes].some((it) => it.nodeType === 3 && it.data.trim());
        if (!hasText || !element.getClientRects().length || ["title", "option", "script", "style"].includes(element.localName)) continue;
        const style = getComputedStyle(element);
        const ink = numbers(element instanceof SVGElement ? style.fill : style.color).slice(0, 3);
        const [a, b] = [light(ink), light(colourBehind(element))].sort((p, q) => q - p);
        const contrast = (a + 0.05) / (b + 0.05);
        if (contrast < 4.5) found.set((element.id || element.className.baseVal || element.className || element.localName), contrast.toFixed(2));
    }
    return [...found];
})()`;

/** Elements that are wider than the page, or of which something is cut at its right edge. */
const CUT_OFF = `[...document.querySelectorAll("body *")].filter((it) => it.getClientRects().length && !it.closest("svg, pre, .scroll, table, .hidden-text, .hidden-input"))
    .filter((it) => it.getBoundingClientRect().right > innerWidth + 0.5).map((it) => it.id || it.className || it.localName)`;

/** What breaks a rule for readers by ear, by keyboard or with an unsteady hand; each rule names the elements. */
const BROKEN_RULES = `(() => {
    const all = (selector) => [...document.querySelectorAll(selector)];
    const isShown = (it) => it.getClientRects().length > 0 && !it.closest("[aria-hidden=true]") && !it.closest(".hidden-text, .hidden-input");
    const nameOf = (it) => it.id || (it.className.baseVal ?? it.className) || it.localName;
    const levels = all("h1, h2, h3, h4, h5, h6").filter(isShown).map((it) => Number(it.localName[1]));
    const ids = all("[id]").map((it) => it.id);
    const references = ["for", "aria-labelledby", "aria-describedby", "aria-controls", "aria-owns"];
    const isNamed = (it) => it.getAttribute("aria-label")?.trim() || it.getAttribute("aria-labelledby") || it.querySelector(":scope > title");
    const isLarge = (it) => { const { width, height } = it.getBoundingClientRect(); return width >= 24 && height >= 24; };
    const found = {
        "the page has a language and a title": document.documentElement.lang && document.title ? [] : ["html"],
        "levels of headings begin with 1 and leave none out": levels.filter((it, at) => it > (levels[at - 1] ?? 0) + 1),
        "ids are unique": ids.filter((it, at) => ids.indexOf(it) < at),
        "what is referred to is there": references.flatMap((name) => all("[" + name + "]").flatMap((it) => it.getAttribute(name).split(" ")).filter((id) => !ids.includes(id))),
        "pictures are named, or hidden": all("svg, canvas, img, [role=img]").filter((it) => isShown(it) && !it.parentElement.closest("svg") && !isNamed(it)).map(nameOf),
        "tables have heads, or say that they only arrange": all("table").filter((it) => isShown(it) && !it.querySelector("th") && !["presentation", "none"].includes(it.getAttribute("role"))).map(nameOf),
        "the main part is one, and all shown text is in a landmark": all("main").length === 1 ? [] : ["main"],
        // a link in a sentence has the height of its line
        "buttons, fields and choices are at least 24 pixels wide and high": all("button:not(.link), select, input, summary").filter((it) => isShown(it) && !isLarge(it.closest("label") ?? it)).map(nameOf),
        "no order of its own for Tab": all("[tabindex]").filter((it) => it.tabIndex > 0).map(nameOf),
    };
    return Object.entries(found).filter(([, broken]) => broken.length > 0).map(([rule, broken]) => rule + ": " + broken.slice(0, 5).join(", "));
})()`;

/** The elements that Tab reaches, of which those are marked that look the same with and without the focus. */
async function reached(tab, most) {
    await tab.evaluate("document.activeElement.blur()");
    const found = [];
    for (let count = 0; count < most; count++) {
        await tab.press("Tab");
        const it = await tab.evaluate(`(() => { const it = document.activeElement; if (it === document.body) return null;
            const looks = () => { const { outlineStyle, outlineWidth, boxShadow, borderColor } = getComputedStyle(it); return [outlineStyle === "none" ? "" : outlineWidth, boxShadow, borderColor].join(); };
            const focused = looks(); it.blur(); const plain = looks(); it.focus({ focusVisible: true }); return { name: it.id || it.textContent.trim().slice(0, 20), isSeen: focused !== plain }; })()`);
        if (it === null) {
            break;
        }
        found.push(it);
    }
    return found;
}

async function checkRules(checks, tab) {
    await checks.check("no rule for readers by ear or keyboard is broken", async () => {
        for (const set of ["goTo(4)", "goTo(9)", "changeForm('compact')", "changeForm('folded')", "changeForm('detail')", "showAct(viewer.app.history.acts[0])"]) {
            await tab.evaluate(`viewer.app.${set}`);
            assert.deepEqual(await tab.evaluate(BROKEN_RULES), [], set);
        }
    });
    await tab.evaluate("viewer.app.closeStory(); viewer.app.changeForm('detail'); viewer.app.goTo(4)");
    await checks.check("Tab reaches each control, and one sees where it is", async () => {
        const found = await reached(tab, 60);
        for (const id of ["forward", "play", "slider", "cycle", "scroller", "save-svg"]) {
            assert.ok(found.some((it) => it.name === id), `${id} isn't reached: ${found.map((it) => it.name).join(", ")}`);
        }
        assert.deepEqual(found.filter((it) => !it.isSeen).map((it) => it.name), []);
    });
}

async function checkPictures(checks, tab) {
    await checks.check("the picture as SVG has each text of the page's picture, also outside the window, and its colours", async () => {
        await tab.evaluate("viewer.setScale(viewer.app, 1.3); viewer.app.pane.drawWhole()");
        const text = await tab.evaluate("viewer.pictureText(viewer.app.pane.element)");
        const shown = await tab.evaluate("[...document.querySelectorAll('#network text')].map((it) => it.firstChild.data)");
        const written = [...text.matchAll(/<text[^>]*>([^<]*)</g)].map((it) => it[1].replaceAll("&lt;", "<"));
        assert.deepEqual(written.sort(), shown.sort());
        assert.ok(written.includes("2@0 faa 10 *"), written.join());
        assert.match(text, /stroke:rgb\(11, 98, 164\)/);
        assert.doesNotMatch(text, /var\(|class=/);
    });
    await checks.check("the picture as PNG has twice the size of the picture", async () => {
        const [size, type, width] = await tab.evaluate("viewer.pngOf(viewer.pictureText(viewer.app.pane.element)).then(async (it) => [it.size, it.type, (await createImageBitmap(it)).width])");
        assert.ok(size > 10_000 && type === "image/png");
        assert.equal(width, 2 * Math.round(await tab.evaluate("viewer.app.picture.layout.width")));
    });
    await checks.check("Save SVG and Save PNG give files", async () => {
        await tab.saveInto(checks.folder);
        for (const kind of ["svg", "png"]) {
            await tab.click(`#save-${kind}`);
            const file = path.join(checks.folder, `expected_cycle_4.${kind}`);
            for (let tries = 0; tries < 200 && !(fs.existsSync(file) && fs.statSync(file).size > 1000); tries++) {
                await new Promise((resolve) => setTimeout(resolve, 50));
            }
            assert.ok(fs.statSync(file).size > 1000, file);
            if (checks.options.pictures) {
                fs.copyFileSync(file, path.join(checks.options.pictures, `saved.${kind}`));
            }
        }
    });
    await checks.check("on paper the picture is whole, on one page, and no control is there", async () => {
        const { bytes, sheets } = await tab.paper();
        assert.equal(sheets, 1);
        if (checks.options.pictures) {
            fs.writeFileSync(path.join(checks.options.pictures, "print.pdf"), bytes);
        }
        await tab.emulate({}, "print");
        const shown = await tab.evaluate("[...document.querySelectorAll('button, input, select, aside, .strip')].filter((it) => it.getClientRects().length).map((it) => it.id)");
        await tab.emulate({});
        assert.deepEqual(shown, []);
    });
}

async function checkKeys(checks, tab) {
    const cycle = () => tab.evaluate("viewer.app.cycle");
    await checks.check("keys of one letter can be turned off, and stay off", async () => {
        await tab.evaluate("viewer.app.goTo(0); document.activeElement.blur()");
        await tab.click("#letters");
        await tab.evaluate("document.activeElement.blur()");
        await tab.press("c");
        assert.equal(await cycle(), 0);
        await tab.press("ArrowRight");
        assert.equal(await cycle(), 1);
        const other = await checks.tab(PAGE);
        assert.equal(await other.evaluate("document.querySelector('#letters').checked"), false);
        // a tab behind another draws nothing, and scrolls nothing
        await tab.toFront();
        await tab.click("#letters");
        await tab.evaluate("document.activeElement.blur()");
        await tab.press("c");
        assert.equal(await cycle(), 3);
    });
    await checks.check("the picture that was reached by keyboard is scrolled by its keys", async () => {
        await tab.evaluate("viewer.app.goTo(2); viewer.setScale(viewer.app, 2.5); document.querySelector('#texts').focus()");
        for (let tries = 0; tries < 6 && (await tab.evaluate("document.activeElement.id")) !== "scroller"; tries++) {
            await tab.press("Tab");
        }
        assert.equal(await tab.evaluate("document.activeElement.id"), "scroller");
        await tab.evaluate("document.querySelector('#scroller').scrollTo(0, 0)");
        // a key while the picture still moves would end that motion
        for (const [key, name] of [["ArrowRight", "scrollLeft"], ["ArrowDown", "scrollTop"]]) {
            await tab.press(key);
            await tab.wait(`document.querySelector('#scroller').${name} > 20`);
            await new Promise((resolve) => setTimeout(resolve, 500));
        }
        assert.equal(await cycle(), 2);
    });
    await checks.check("each request that waits can be reached by keyboard", async () => {
        await tab.evaluate("viewer.app.goTo(4); document.querySelector('#entries-box').open = true");
        await tab.wait("document.querySelectorAll('#entries li').length > 0");
        assert.deepEqual(await tab.texts("#entries li"), [
            "req 1 0: 2@0 faa 10 *", "wait 0 0: 2@0 same 0 plus 3 0@0", "wait 0 2: 3@0 same 1 plus 4 1@0", "wait 1 0: 2@0 same 3 plus 4 3@0",
        ]);
        await tab.evaluate("[...document.querySelectorAll('#entries button')].find((it) => it.textContent === '1@0').focus()");
        await tab.press("Enter");
        await tab.wait("!document.querySelector('#story').hidden");
        assert.equal(await tab.text("#story h2"), "Request 1.0");
        await tab.press("Escape");
    });
}

async function checkLinks(checks, tab) {
    const go = (hash) => tab.evaluate(`location.hash = "${hash}"; new Promise((it) => setTimeout(it, 100))`);
    await checks.check("a link to what isn't there says so, and a notice goes when the cycle changes", async () => {
        for (const [hash, said] of [
            ["#cycle=3&request=9.7", "There is no request 9.7 in this trace."],
            ["#cycle=3&act=5.1", "Module 1 doesn't act in cycle 5."],
            ["#cycle=99", "There is no cycle 99: the last is 9."],
        ]) {
            await go(hash);
            await tab.wait(`document.querySelector("#notice").textContent === ${JSON.stringify(said)}`, 5);
            await tab.evaluate("document.activeElement.blur()");
            await tab.press("Home");
            await tab.press("ArrowRight");
            assert.equal(await tab.evaluate("document.querySelector('#notice').hidden"), true);
        }
    });
    await checks.check("a link is followed also where the page writes its address just then", async () => {
        await tab.evaluate("location.hash = '#cycle=7'; history.replaceState(null, '', '#cycle=1'); new Promise((it) => setTimeout(it, 300))");
        assert.equal(await tab.evaluate("viewer.app.cycle"), 7);
    });
    await checks.check("nothing of the end is cut", async () => {
        await tab.evaluate("document.activeElement.blur()");
        await tab.press("End");
        const [inner, outer] = await tab.evaluate("(() => { const it = document.querySelector('#ending-text'); return [[it.scrollWidth, it.scrollHeight], [it.clientWidth, it.clientHeight]]; })()");
        assert.deepEqual(inner, outer);
    });
}

module.exports = async (checks) => {
    const tab = await checks.tabWithExample("two_level_tree", "#cycle=4");
    await tab.evaluate("viewer.app.showRequest(viewer.app.history.requests[1])");
    for (const scheme of ["light", "dark"]) {
        await tab.emulate({ "prefers-color-scheme": scheme });
        await checks.check(`each text has a contrast of at least 4.5, ${scheme}`, async () => {
            for (const cycle of [4, 9]) {
                await tab.evaluate(`viewer.app.goTo(${cycle})`);
                assert.deepEqual(await tab.evaluate(LOW_CONTRAST), [], `cycle ${cycle}`);
            }
            await tab.evaluate("viewer.app.goTo(4)");
        });
        await checks.picture(tab, `scheme_${scheme}`);
    }
    await tab.emulate({});
    await tab.evaluate("viewer.app.closeStory()");
    await checkRules(checks, tab);
    await checkPictures(checks, tab);
    await checkKeys(checks, tab);
    await checkLinks(checks, tab);
    await checks.check("at 375 pixels nothing is cut", async () => {
        await tab.resize(375, 700);
        await tab.evaluate("viewer.app.goTo(4); new Promise((it) => setTimeout(it, 200))");
        assert.deepEqual(await tab.evaluate(CUT_OFF), []);
        assert.equal(await tab.evaluate("document.documentElement.scrollWidth"), 375);
        await checks.picture(tab, "narrow");
        await tab.resize(375, 2200);
        await checks.picture(tab, "narrow_long");
    });
    await checks.checkQuiet("for everybody", tab);
};
