// The page that `viewer/page` writes, opened from a folder that has nothing else.
"use strict";

const assert = require("node:assert/strict");
const path = require("node:path");
const { spawnSync } = require("node:child_process");
const { pathToFileURL } = require("node:url");
const { FOLDER, example } = require("../support.js");

module.exports = async (checks) => {
    const files = ["combined_pair", "two_level_tree"].map((it) => path.join(example(it), "expected"));
    const written = spawnSync(path.join(FOLDER, "page"), files, { encoding: "utf8", maxBuffer: 1 << 28 });
    const address = pathToFileURL(checks.file("lesson.html", written.stdout)).href;

    await checks.check("a page with traces shows the first, and each that is chosen", async () => {
        const tab = await checks.tab(address);
        assert.match(await tab.text("#facts"), /^combined_pair\/expected: 8 cycles, 2 PEs/);
        await tab.enter("#traces", "two_level_tree/expected");
        assert.match(await tab.text("#facts"), /^two_level_tree\/expected: 10 cycles, 4 PEs/);
        await checks.checkQuiet("a page with traces", tab);
        assert.deepEqual((await tab.asked()).filter((it) => it.startsWith("file:")), [address]);
    });

    await checks.check("a link leads to a trace and a cycle of the page", async () => {
        const tab = await checks.tab(`${address}#trace=two_level_tree%2Fexpected&cycle=6&act=6.0`);
        assert.equal(await tab.text("#cycle-name"), "6");
        assert.match(await tab.text("#story .explanation"), /^cycle 6 module 0 cell 0 \[s1x0/);
    });
};
