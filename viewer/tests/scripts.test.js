// The page and its scripts fit together.
"use strict";

const test = require("node:test");
const assert = require("node:assert/strict");
const fs = require("node:fs");
const path = require("node:path");
const { spawnSync } = require("node:child_process");
const { FOLDER, viewerScripts, scriptOrder } = require("./support.js");

const PAGE = fs.readFileSync(path.join(FOLDER, "index.html"), "utf8");
const SOURCES = new Map(
    fs.readdirSync(path.join(FOLDER, "src")).map((it) => [path.basename(it, ".js"), fs.readFileSync(path.join(FOLDER, "src", it), "utf8")]),
);

function namesIn(text, pattern) {
    return [...text.matchAll(pattern)].flatMap((it) => it[1].split(",").map((name) => name.trim().split(":")[0])).filter(Boolean);
}

/** The names that a script adds to `viewer`. */
function definedIn(text) {
    return [...namesIn(text, /Object\.assign\(viewer, \{([^}]*)\}\)/g), ...namesIn(text, /^ {4}viewer\.(\w+) = /gm)];
}

/** The names of `viewer` that a script uses. */
function usedIn(text) {
    return [...namesIn(text, /const \{([^}]*)\} = viewer;/g), ...namesIn(text, /\bviewer\.(\w+)/g)];
}

test("each script needs in the table those whose names it uses, and no others", () => {
    const owners = new Map([...SOURCES].flatMap(([name, text]) => definedIn(text).map((it) => [it, name])));
    for (const [name, text] of SOURCES) {
        const used = usedIn(text);
        assert.deepEqual(used.filter((it) => !owners.has(it)), [], `${name} uses what no script defines`);
        const needed = new Set(used.map((it) => owners.get(it)).filter((it) => it !== name));
        assert.deepEqual(viewerScripts[name], [...needed].sort(), name);
    }
});

test("no name is defined by two scripts", () => {
    const names = [...SOURCES.values()].flatMap((it) => [...new Set(definedIn(it))]);
    assert.deepEqual(names.filter((it, index) => names.indexOf(it) !== index), []);
});

test("the table has each script of the folder once, and each comes behind those that it needs", () => {
    const order = scriptOrder(viewerScripts);
    assert.deepEqual([...order].sort(), [...SOURCES.keys()].sort());
    order.forEach((name, index) => viewerScripts[name].forEach((it) => assert.ok(order.indexOf(it) < index, `${name} before ${it}`)));
});

test("the page maker puts the scripts in an order in which each comes behind those that it needs", () => {
    const program = "import pages; print(' '.join(pages.script_order()))";
    const ran = spawnSync("python3", ["-B", "-c", program], { cwd: FOLDER, encoding: "utf8" });
    const order = ran.stdout.trim().split(" ");
    assert.deepEqual([...order].sort(), [...SOURCES.keys()].sort());
    order.forEach((name, index) => viewerScripts[name].forEach((it) => assert.ok(order.indexOf(it) < index, `${name} before ${it}`)));
});

test("the page loads its scripts by the table alone", () => {
    const loaded = [...PAGE.matchAll(/<script src="([^"]+)">/g)].map((it) => it[1]);
    assert.deepEqual(loaded, ["scripts.js", "load.js"]);
});

test("each element that a script asks for is in the page", () => {
    const ids = new Set([...PAGE.matchAll(/ id="([^"]+)"/g)].map((it) => it[1]));
    for (const [name, text] of SOURCES) {
        const asked = [...text.matchAll(/(?:byId|onClick)\("([^"]+)"/g)].map((it) => it[1]);
        assert.deepEqual(asked.filter((it) => !ids.has(it)), [], name);
    }
});
