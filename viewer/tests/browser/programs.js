// Programs, settings and steps in the page, parts of traces, and the playground.
"use strict";

const assert = require("node:assert/strict");
const path = require("node:path");
const { spawn } = require("node:child_process");
const { FOLDER, PROGRAM, example, hasProgram } = require("../support.js");
const { STEPS, PARTS } = require("../reference_texts.js");

async function programs(checks) {
    const folder = example("open_cell_stall");
    const steps = checks.file("steps.txt", STEPS.open_cell_stall);
    const tab = await checks.tab();
    await checks.check("a program, settings, steps and their trace are opened at once, in any order", async () => {
        await tab.choose([steps, path.join(folder, "prog.s"), path.join(folder, "expected"), path.join(folder, "conf.toml")]);
        await tab.wait("viewer.app.open?.execution.steps");
        await tab.evaluate("viewer.app.goTo(5)");
        assert.equal(await tab.text("#pe-state"), "PE 0: stalled, at instruction 4: it waits for cell 0.");
        assert.deepEqual(await tab.texts("#listing .marker"), ["PE 0", "PE 1"]);
        assert.match(await tab.text("#settings-text"), /^Places: 4 in a request queue/);
        assert.deepEqual((await tab.texts(".series b")), ["1", "0", "0", "1"]);
        await tab.evaluate("viewer.app.goTo(8)");
        assert.deepEqual(await tab.texts("#registers .new"), ["r3 = 0 (new)"]);
        await tab.enter("#chosen-pe", 1);
        assert.equal(await tab.text("#pe-state"), "PE 1: halted, at instruction 5.");
        await checks.picture(tab, "program");
    });
    await checks.check("steps of another run are refused, and the trace stays open", async () => {
        await tab.choose([checks.file("other.txt", STEPS.cycle_limit)]);
        await tab.wait("/doesn't belong/.test(document.querySelector('#notice').textContent)");
        assert.match(await tab.text("#notice"), /^other\.txt doesn't belong to expected: by them r4 of PE 0 is 0, and at the end of the trace it is 1\.$/);
        assert.ok(await tab.evaluate("Boolean(viewer.app.open.execution.steps)"));
    });
    await checks.check("a program that is opened before its trace waits for it", async () => {
        const other = await checks.tab();
        await other.choose([path.join(folder, "prog.s")]);
        await other.wait("!document.querySelector('#refusal').hidden");
        await other.choose([path.join(folder, "expected")]);
        await other.wait("viewer.app.open?.execution.program");
        assert.equal(await other.evaluate("document.querySelector('#program-box').hidden"), false);
    });
    await checks.check("a part of a trace says so, and what isn't known in it", async () => {
        const other = await checks.tab();
        await other.choose(checks.file("part", PARTS[0][3]));
        await other.wait("viewer.app.trace");
        assert.equal(await other.text("#facts"), "part: a part, cycles 5 to 6, 2 PEs. The run ends quiet, in this part's last cycle or later.");
        assert.equal(await other.text("#cycle-name"), "5");
        assert.match(await other.text("#happenings"), /This part begins with this cycle/);
        await other.press("ArrowRight");
        assert.match(await other.text("#happenings"), /is split/);
        assert.equal(await other.evaluate("[document.querySelector('#cycle').min, document.querySelector('#cycle').max].join()"), "5,6");
        const unknown = await checks.tab();
        await unknown.choose(checks.file("unknown", PARTS[1][3]));
        await unknown.wait("viewer.app.trace");
        assert.deepEqual(await unknown.texts("#cells li"), ["● cell 0: unknown"]);
        await checks.checkQuiet("a part", other);
    });
    await checks.checkQuiet("programs", tab);
}

async function playground(checks) {
    const server = spawn(path.join(FOLDER, "serve"), ["--cycles", "5000"], { env: { ...process.env, ULTRA: PROGRAM }, stdio: ["ignore", "pipe", "inherit"] });
    const said = await new Promise((resolve) => server.stdout.once("data", (it) => resolve(`${it}`)));
    const address = /http:\S+/.exec(said)[0];
    try {
        const tab = await checks.tab(address);
        await checks.check("the playground runs its first example and shows its trace", async () => {
            await tab.wait("viewer.app.trace");
            assert.match(await tab.text("#facts"), /^run: 8 cycles, 2 PEs/);
            await tab.evaluate("viewer.app.goTo(3)");
            await checks.picture(tab, "playground");
        });
        await checks.check("a fault is marked at its line, and the trace stays", async () => {
            await tab.evaluate("viewer.playground.program.text = 'li r1 0\\nfoo r1\\nhalt\\n'");
            await tab.click("#run");
            await tab.wait("/unknown word/.test(document.querySelector('#run-said').textContent)");
            assert.equal(await tab.text("#run-said"), "Program, line 2: unknown word.");
            assert.deepEqual(await tab.texts(".line-numbers mark"), ["2\n"]);
            assert.equal(await tab.evaluate("getSelection().toString() || (() => { const it = document.querySelector('#program'); return it.value.slice(it.selectionStart, it.selectionEnd); })()"), "foo r1");
            await checks.picture(tab, "playground_fault");
        });
        await checks.check("a program that is written is run by Ctrl+Enter, with other settings", async () => {
            await tab.evaluate("viewer.playground.settings.text = 'stages = 2\\n'; viewer.playground.program.text = 'li r2 1\\nfaa r3 r0 r2\\nhalt\\n'; document.querySelector('#program').focus()");
            await tab.press("Enter", { control: true });
            await tab.wait("/4 PEs/.test(document.querySelector('#facts').textContent)");
            assert.equal(await tab.text("#listing .marker.chosen, #listing code"), "li r2 1");
        });
        await checks.check("the page can be shared: it needs no server", async () => {
            const page = await tab.evaluate("fetch('page', { method: 'POST', body: JSON.stringify({ texts: viewer.playground.texts }) }).then((it) => it.text())");
            const { pathToFileURL } = require("node:url");
            const shared = await checks.tab(pathToFileURL(checks.file("shared.html", page)).href);
            await shared.wait("viewer.app.trace");
            assert.match(await shared.text("#facts"), /^run: \d+ cycles, 4 PEs/);
            assert.equal(await shared.evaluate("document.querySelector('#program-box').hidden"), false);
            await checks.checkQuiet("a shared page", shared);
        });
        await checks.check("the playground asks its own server alone", async () => {
            assert.deepEqual((await tab.asked()).filter((it) => !it.startsWith(address) && !/^(about|data|blob):/.test(it)), []);
            assert.deepEqual(await tab.said(), []);
        });
    } finally {
        server.kill();
    }
}

module.exports = async (checks) => {
    await programs(checks);
    if (hasProgram()) {
        await playground(checks);
    }
};
