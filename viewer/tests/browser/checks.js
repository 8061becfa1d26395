// Counts what passed and failed, and opens the viewer in tabs.
"use strict";

const assert = require("node:assert/strict");
const fs = require("node:fs");
const os = require("node:os");
const path = require("node:path");
const { pathToFileURL } = require("node:url");
const { FOLDER, example } = require("../support.js");

const PAGE = pathToFileURL(path.join(FOLDER, "index.html")).href;

class Checks {
    constructor(browser, options) {
        this.browser = browser;
        this.options = options;
        this.passed = 0;
        this.failed = 0;
        this.folder = fs.mkdtempSync(path.join(os.tmpdir(), "viewer-checks-"));
    }

    clean() {
        fs.rmSync(this.folder, { recursive: true });
    }

    async check(name, act) {
        try {
            await act();
            this.passed += 1;
        } catch (error) {
            this.failed += 1;
            console.log(`failed: ${name}\n${error.stack}`);
        }
    }

    /** A tab with the viewer opened from the disk. */
    async tab(address = PAGE, width = 1280, height = 800) {
        const tab = await this.browser.openTab(width, height);
        await tab.goTo(address);
        return tab;
    }

    /** A tab with a trace in it, without motion. */
    async tabWith(file, hash = "", height = 800) {
        const tab = await this.tab(PAGE + hash, 1280, height);
        await tab.choose(file);
        await tab.wait("viewer.app.trace && viewer.app.history.isDone");
        await tab.evaluate("viewer.app.hasMotion = false");
        return tab;
    }

    tabWithExample(name, hash, height) {
        return this.tabWith(path.join(example(name), "expected"), hash, height);
    }

    /** A file with a text, to be opened. */
    file(name, text) {
        const file = path.join(this.folder, name);
        fs.writeFileSync(file, text);
        return file;
    }

    /** The page complains of nothing and asks nobody for anything. */
    async checkQuiet(name, tab) {
        await this.check(`${name}: nothing on the console, nothing from a network`, async () => {
            assert.deepEqual(await tab.said(), []);
            assert.deepEqual((await tab.asked()).filter((it) => !/^(file|data|about|blob):/.test(it)), []);
        });
    }

    async picture(tab, name) {
        if (this.options.pictures) {
            fs.mkdirSync(this.options.pictures, { recursive: true });
            await tab.evaluate("new Promise((it) => setTimeout(it, 400))");
            // what comes into sight is drawn with the next frame, which a large picture may delay
            await tab.evaluate("Promise.race([new Promise((it) => requestAnimationFrame(() => requestAnimationFrame(it))), new Promise((it) => setTimeout(it, 40_000))])");
            await tab.screenshot(path.join(this.options.pictures, `${name}.png`));
        }
    }
}

module.exports = { Checks, PAGE };
