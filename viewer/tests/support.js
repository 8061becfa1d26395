// What the tests share: the viewer's scripts without its page, the examples, and the program.
"use strict";

const fs = require("node:fs");
const path = require("node:path");
const { spawnSync } = require("node:child_process");

const FOLDER = path.join(__dirname, "..");
const ROOT = path.join(FOLDER, "..");
const PROGRAM = path.resolve(process.env.ULTRA ?? path.join(ROOT, "crates", "ultra", "out", "ultra"));
require(path.join(FOLDER, "scripts.js"));
require(path.join(FOLDER, "load.js"));
const { viewerScripts, scriptOrder } = globalThis;

// `opening` starts the page, so it alone can't be loaded without one
for (const name of scriptOrder(viewerScripts).filter((it) => it !== "opening")) {
    require(path.join(FOLDER, "src", `${name}.js`));
}
const viewer = globalThis.viewer;

/** The folders of examples that have settings and a program. */
function examples(folder = path.join(ROOT, "examples")) {
    const entries = fs.readdirSync(folder, { withFileTypes: true });
    const inner = entries.filter((it) => it.isDirectory()).flatMap((it) => examples(path.join(folder, it.name)));
    return fs.existsSync(path.join(folder, "prog.s")) ? [folder, ...inner] : inner;
}

/** The examples with a trace. */
function exampleTraces() {
    return examples().filter((it) => fs.existsSync(path.join(it, "expected")));
}

function example(name) {
    return path.join(ROOT, "examples", name);
}

function textOf(...parts) {
    return fs.readFileSync(path.join(...parts), "utf8");
}

/** What the program writes to standard output. */
function ultra(...words) {
    const ran = spawnSync(PROGRAM, words, { encoding: "utf8", maxBuffer: 1 << 28 });
    if (ran.error || ran.status !== 0) {
        throw new Error(`${PROGRAM} ${words.join(" ")}: ${ran.error ?? ran.stderr}`);
    }
    return ran.stdout;
}

function bytesOf(text) {
    return new TextEncoder().encode(text);
}

function traceOf(text) {
    return new viewer.Trace(bytesOf(text));
}

/** A trace and its whole history. */
function historyOf(text) {
    const history = new viewer.History(traceOf(text));
    history.advance(Infinity);
    return history;
}

function hasProgram() {
    return fs.existsSync(PROGRAM);
}

module.exports = { viewer, viewerScripts, scriptOrder, FOLDER, ROOT, PROGRAM, examples, exampleTraces, example, textOf, ultra, bytesOf, traceOf, historyOf, hasProgram };
