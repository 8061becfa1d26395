// The page that `viewer/page` writes: all of the viewer and the traces, and nothing that a browser
// would have to fetch.
"use strict";

const test = require("node:test");
const assert = require("node:assert/strict");
const fs = require("node:fs");
const os = require("node:os");
const path = require("node:path");
const { spawnSync } = require("node:child_process");
const { FOLDER, example, textOf } = require("./support.js");

function page(...files) {
    return spawnSync(path.join(FOLDER, "page"), files, { encoding: "utf8", maxBuffer: 1 << 28 });
}

/** The traces in a page, as the viewer finds them. */
function tracesIn(text) {
    const elements = text.matchAll(/<script type="application\/json" data-trace="([^"]*)">([^<]*)<\/script>/g);
    return [...elements].map((it) => ({ name: it[1], text: JSON.parse(it[2]) }));
}

test("the traces are in the page, each under the end of its path", () => {
    const names = ["combined_pair", "two_level_tree"];
    const ran = page(...names.map((it) => path.join(example(it), "expected")));
    assert.equal(ran.status, 0, ran.stderr);
    assert.deepEqual(tracesIn(ran.stdout), names.map((it) => ({ name: `${it}/expected`, text: textOf(example(it), "expected") })));
});

test("the page names no other file and no address", () => {
    const { stdout } = page(path.join(example("combined_pair"), "expected"));
    assert.doesNotMatch(stdout, /<script src|<link rel="stylesheet"|\bimport\b|@import|url\(|fetch\(|XMLHttpRequest/);
    const addresses = [...stdout.matchAll(/https?:\/\/[^"'\s]*/g)].map((it) => it[0]);
    assert.deepEqual([...new Set(addresses)], ["http://www.w3.org/2000/svg"]);
    assert.equal(stdout.match(/<\/script>/g).length, stdout.match(/<script[ >]/g).length);
});

test("a file that isn't a trace is refused, with nothing on standard output", () => {
    const folder = fs.mkdtempSync(path.join(os.tmpdir(), "viewer-"));
    const wrong = path.join(folder, "wrong");
    fs.writeFileSync(wrong, "ultra trace 2\ncycle 0\n</script>é\n");
    for (const [file, message] of [
        [wrong, /line 3: expected ASCII/],
        [path.join(example("combined_pair"), "prog.s"), /there is no trace among these files/],
        [path.join(folder, "none"), /cannot read/],
    ]) {
        const ran = page(file);
        assert.deepEqual([ran.status, ran.stdout], [3, ""]);
        assert.match(ran.stderr, message);
    }
    fs.rmSync(folder, { recursive: true });
});

test("a program and settings belong to the trace of their folder", () => {
    const files = ["combined_pair", "two_level_tree"].flatMap((it) => ["prog.s", "expected", "conf.toml"].map((name) => path.join(example(it), name)));
    const { stdout, status } = page(...files);
    assert.equal(status, 0);
    const found = [...stdout.matchAll(/data-text="([^"]*)" data-of="([^"]*)"/g)].map((it) => it.slice(1));
    assert.deepEqual(found, ["combined_pair", "two_level_tree"].flatMap((it) => ["prog.s", "conf.toml"].map((name) => [`${it}/${name}`, `${it}/expected`])));
    const ran = page(...files.slice(1), path.join(example("tickets"), "prog.s"));
    assert.deepEqual([ran.status, ran.stdout], [3, ""]);
    assert.match(ran.stderr, /tickets\/prog\.s: which trace it belongs to isn't clear/);
});

test("without a trace the usage is written", () => {
    assert.equal(page().status, 2);
});
