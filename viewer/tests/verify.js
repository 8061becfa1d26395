#!/usr/bin/env node
// Compares what the viewer works out from traces with what the program's other commands write, by
// hand.
//
// usage: viewer/tests/verify.js [--fault NAME] [CONF PROG]..
//
// ULTRA names the program; it has to have the commands `steps`, `events` and `requests`. Without
// files it takes the runs of every example on machines of one to six stages. Of each run it compares
// requests, trees, orders, the numbers of the overview, the values of cells, registers and states of
// PEs cycle by cycle, and three parts of the trace. All expected values are read here, by this
// script's rules. With --fault it plants a fault into the viewer, and has to find it: `overview`,
// `steps`, `names` or `part`. The last line is 'N traces, M comparisons, K differ'.
"use strict";

const fs = require("node:fs");
const os = require("node:os");
const path = require("node:path");
const { spawnSync } = require("node:child_process");
const { viewer, PROGRAM, exampleTraces } = require("./support.js");

const CYCLES = 400;
let comparisons = 0;
let differences = 0;

function same(what, shown, expected) {
    comparisons += 1;
    const [a, b] = [shown, expected].map((it) => JSON.stringify(it));
    if (a !== b) {
        differences += 1;
        if (differences <= 10) {
            console.log(`DIFFERS ${what}\n  shown    ${a?.slice(0, 300)}\n  expected ${b?.slice(0, 300)}`);
        }
    }
}

function ultra(...words) {
    const ran = spawnSync(PROGRAM, words, { encoding: "utf8", maxBuffer: 1 << 29 });
    if (ran.status !== 0) {
        throw new Error(`${words.join(" ")}: ${ran.stderr}`);
    }
    return ran.stdout;
}

/** The lines of each cycle of a trace's text, and those from the end on. */
function blocksOf(text) {
    const [, ...blocks] = text.slice(0, text.search(/^end /m)).split(/^(?=cycle )/m);
    return new Map(blocks.map((it) => [Number(/\d+/.exec(it)[0]), it.trimEnd().split("\n")]));
}

function counted(lines, pattern) {
    const found = new Map();
    for (const it of lines) {
        const match = pattern.exec(it);
        if (match) {
            found.set(Number(match[1]), (found.get(Number(match[1])) ?? 0) + 1);
        }
    }
    return (cycle) => found.get(cycle) ?? 0;
}

function checkHistory(name, history, conf, prog) {
    same(`${name}: explain`, viewer.explainText(history), ultra("explain", conf, prog, "--heap", "16777216"));
    same(`${name}: order`, viewer.orderText(history), ultra("order", conf, prog));
    const rows = ultra("requests", conf, prog).trim().split("\n").slice(1).map((it) => it.split(","));
    const byName = (a, b) => a[0] - b[0] || a[1] - b[1];
    const expected = rows.map(([pe, number, op, cell, word, issued, answered, reply]) => [+pe, +number, op, +cell, +word, +issued, answered === "" ? null : +answered, reply === "" || reply === "ack" ? null : +reply]);
    same(`${name}: requests`, history.requests.map((it) => [it.pe, it.number, it.kind, it.cell, it.word, it.issued, it.answered, it.value]).sort(byName), expected.sort(byName));
    return expected;
}

function checkOverview(name, history, requests, conf, prog) {
    const events = ultra("events", conf, prog).split("\n");
    const numbers = { combined: / combine /, acts: / act /, issued: / issue /, answered: / answer / };
    for (const [series, word] of Object.entries(numbers)) {
        const count = counted(events.filter((it) => word.test(it)), /^(\d+)/);
        same(`${name}: ${series}`, [...history.overview[series]], [...history.overview[series]].map((_, cycle) => count(cycle)));
    }
    const open = [...history.overview.open].map((_, cycle) => requests.filter((it) => it[5] <= cycle && (it[6] === null || it[6] > cycle)).length);
    same(`${name}: open`, [...history.overview.open], open);
}

/** Registers and states, by this script's own reading of the lines of `steps`. */
function checkSteps(name, execution, text, blocks) {
    const size = execution.trace.net.size;
    const registers = Array.from({ length: size }, () => Array(16).fill(0));
    const state = Array(size).fill("stalled");
    const byCycle = new Map();
    text.trimEnd().split("\n").forEach((it) => byCycle.set(+it.split(" ")[0], [...(byCycle.get(+it.split(" ")[0]) ?? []), it.split(" ")]));
    const stalled = [];
    for (const cycle of blocks.keys()) {
        const stepped = new Set();
        for (const words of byCycle.get(cycle) ?? []) {
            const pe = +words[2];
            const set = words.map((it) => /^r(\d+)=(\d+)$/.exec(it)).find(Boolean);
            if (set) {
                registers[pe][+set[1]] = +set[2];
            }
            if (words[1] === "step") {
                stepped.add(pe);
                state[pe] = words[4] === "halt" ? "halted" : /^f[12]$/.test(words.at(-1)) ? words.at(-1) : "running";
            }
        }
        state.forEach((it, pe) => !stepped.has(pe) && it === "running" && (state[pe] = "stalled"));
        stalled.push(state.filter((it) => it === "stalled").length);
        for (let pe = 0; pe < size; pe++) {
            same(`${name}: registers of PE ${pe} after cycle ${cycle}`, execution.registersAt(pe, cycle).map((it) => it.value), registers[pe]);
            const shown = execution.peAt(pe, cycle).state;
            // the cycle of a halt is still one in which the PE steps
            same(`${name}: state of PE ${pe} after cycle ${cycle}`, shown === "running" && stepped.has(pe) && state[pe] !== "running" ? state[pe] : shown, state[pe]);
        }
    }
    same(`${name}: stalled`, [...execution.history.overview.stalled], stalled);
}

/** The values of cells after each cycle of a part: those that an act of the part has shown, or that nothing changes. */
function checkPart(name, text) {
    const history = new viewer.History(new viewer.Trace(new TextEncoder().encode(text)));
    history.advance(Infinity);
    const [, from, to] = /^part (\d+) (\d+)/m.exec(text);
    const blocks = blocksOf(text);
    const ends = new Map([...text.matchAll(/^cell (\d+) (\d+)$/gm)].map((it) => [+it[1], +it[2]]));
    const acted = new Set([...text.matchAll(/^act \d+ \d+@(\d+)/gm)].map((it) => +it[1]));
    const isToEnd = Math.max(...blocks.keys()) < +to;
    same(`${name}: cycles`, [history.trace.first, history.trace.count], [+from, blocks.size]);
    const now = new Map();
    for (const [cycle, lines] of blocks) {
        lines.forEach((it) => {
            const act = /^act \d+ \d+@(\d+) .* now (\d+)$/.exec(it);
            if (act) {
                now.set(+act[1], +act[2]);
            }
        });
        const expected = [...new Set([...acted, ...ends.keys()])].sort((a, b) => a - b)
            .map((cell) => [cell, now.has(cell) ? now.get(cell) : isToEnd && !acted.has(cell) ? ends.get(cell) : null]).filter((it) => it[1] !== 0);
        same(`${name}: cells after cycle ${cycle}`, viewer.cellsAt(history, cycle).map((it) => [it.cell, it.value]), expected);
        same(`${name}: acts of cycle ${cycle}`, history.overview.acts[cycle - from], lines.filter((it) => it.startsWith("act ")).length);
    }
}

/** With the steps of a part its requests have the numbers of the run, all that are issued in it after its first cycle. */
function checkNames(name, text, steps, requests) {
    const history = new viewer.History(new viewer.Trace(new TextEncoder().encode(text)));
    history.advance(Infinity);
    try {
        new viewer.Execution(history).take("steps", steps);
    } catch (fault) {
        same(`${name}: steps`, fault.expected, null);
        return;
    }
    for (const it of history.requests) {
        const isIts = ([pe, , , cell, , issued, answered]) => pe === it.pe && cell === it.cell && (it.isBefore ? issued <= history.trace.first && (answered ?? Infinity) > history.trace.first && answered === it.answered : issued === it.issued);
        const found = requests.filter(isIts);
        same(`${name}: the number of the request of PE ${it.pe} to cell ${it.cell} of cycle ${it.issued}`, it.number ?? (it.isBefore ? found[0]?.[1] : null), found[0]?.[1]);
    }
}

/** Faults that are planted into the viewer, each of which this script has to find. */
const PLANTED = {
    overview: () => {
        const { note } = viewer.Overview.prototype;
        viewer.Overview.prototype.note = function (index, numbers) {
            note.call(this, index, { ...numbers, combined: Math.min(1, numbers.combined) });
        };
    },
    steps: () => {
        const { registersAt } = viewer.Execution.prototype;
        viewer.Execution.prototype.registersAt = function (pe, cycle) {
            return registersAt.call(this, pe, Math.max(0, cycle - 1));
        };
    },
    names: () => {
        const { numberOf } = viewer.History.prototype;
        viewer.History.prototype.numberOf = function (pe, cell, cycle) {
            return numberOf.call(this, pe, cell, cycle) ?? 0;
        };
        viewer.History.prototype.takeNumbers = () => {};
    },
    part: () => {
        Object.defineProperty(viewer.Trace.prototype, "isToEnd", { get: () => true });
        viewer.History.prototype.checkEnd = () => {};
    },
};

function tryRun(name, conf, prog) {
    const text = ultra("run", conf, prog);
    const history = new viewer.History(new viewer.Trace(new TextEncoder().encode(text)));
    history.advance(Infinity);
    const requests = checkHistory(name, history, conf, prog);
    checkOverview(name, history, requests, conf, prog);
    const execution = new viewer.Execution(history);
    const steps = ultra("steps", conf, prog);
    execution.take("program", fs.readFileSync(prog, "utf8"));
    execution.take("steps", steps);
    const blocks = blocksOf(text);
    checkSteps(name, execution, steps, blocks);
    for (const part of [1, 2, 3]) {
        const from = Math.floor((part * blocks.size) / 5) + 1;
        const to = from + Math.floor((part * blocks.size) / 4);
        if (from < blocks.size) {
            const window = ["--from", `${from}`, "--to", `${to}`];
            const text = ultra("run", conf, prog, ...window);
            checkPart(`${name}, part ${from} to ${to}`, text);
            checkNames(`${name}, part ${from} to ${to}`, text, ultra("steps", conf, prog, ...window), requests);
        }
    }
}

/** The examples on machines of each size, with a limit on cycles. */
function runsOfExamples(folder) {
    return exampleTraces().flatMap((example, index) => [index % 6, (index + 3) % 6].map((it) => {
        const stages = it + 1;
        const conf = path.join(folder, `${index}_${stages}.toml`);
        fs.writeFileSync(conf, `stages = ${stages}\ncycles = ${stages > 4 ? CYCLES / 8 : CYCLES}\ncells = 64\n`);
        return [`${path.basename(example)}, ${stages} stages`, conf, path.join(example, "prog.s")];
    }));
}

function main(words) {
    const planted = words[0] === "--fault" ? words.splice(0, 2)[1] : null;
    if (planted) {
        PLANTED[planted]();
    }
    const folder = fs.mkdtempSync(path.join(os.tmpdir(), "viewer-verify-"));
    const named = words.length > 0 ? words.flatMap((it, index) => (index % 2 ? [] : [[it, it, words[index + 1]]])) : runsOfExamples(folder);
    try {
        named.forEach((it) => tryRun(...it));
    } finally {
        fs.rmSync(folder, { recursive: true });
    }
    console.log(`${named.length} traces, ${comparisons} comparisons, ${differences} differ`);
    process.exitCode = (differences > 0) === Boolean(planted) ? 0 : 1;
}

main(process.argv.slice(2));
