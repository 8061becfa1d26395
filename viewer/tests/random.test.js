// Random runs: trace, trees and serial order against what the program writes. 300 are of the
// examples' programs with other settings, and the others of random programs.
"use strict";

const test = require("node:test");
const assert = require("node:assert/strict");
const fs = require("node:fs");
const os = require("node:os");
const path = require("node:path");
const { viewer, PROGRAM, examples, ultra, traceOf, historyOf, hasProgram } = require("./support.js");
const { Draws, randomSettings, randomProgram } = require("./random_runs.js");

const RUNS_PER_SIZE = 50;
const PROGRAMS_PER_SIZE = 20;
const OPTIONS = { skip: hasProgram() ? false : `${PROGRAM} isn't built` };

/** What happened in the runs, to see that nothing is left untried. */
class Account {
    constructor() {
        this.kinds = new Set();
        this.heights = new Set();
        this.endings = new Set();
        this.pairsInQueue = 0;
        this.stays = 0;
        this.besideMarked = 0;
    }

    /**
     * Whether in front of an entry that combined there is another of its cell, which had combined
     * before.
     */
    isBesideMarked(list, old) {
        const index = list.findIndex((it) => it.pe === old.pe && it.cell === old.cell);
        return list.slice(0, Math.max(0, index)).some((it) => it.cell === old.cell && it.isMarked);
    }

    note({ trace, acts }) {
        this.endings.add(trace.end.isQuiet);
        acts.forEach((it) => this.heights.add(viewer.heightOf(it.tree)));
        for (let cycle = 0; cycle < trace.count; cycle++) {
            const { combinations, stays } = viewer.stepOf(trace.net, trace.before(cycle), trace.cycle(cycle));
            const byQueue = new Map();
            for (const { queue, old, later } of combinations) {
                this.besideMarked += this.isBesideMarked(trace.cycle(cycle).places.get(queue), old) ? 1 : 0;
                byQueue.set(queue, (byQueue.get(queue) ?? 0) + 1);
                this.kinds.add(`${old.kind} ${later.kind}`);
            }
            this.pairsInQueue = Math.max(this.pairsInQueue, ...byQueue.values());
            this.stays += stays.length;
        }
    }
}

function tryRun(conf, program, name) {
    const run = `${name} with\n${fs.readFileSync(conf, "utf8")}`;
    const text = ultra("run", conf, program);
    assert.equal(viewer.traceText(traceOf(text)), text, run);
    const history = historyOf(text);
    assert.equal(viewer.explainText(history), ultra("explain", conf, program, "--heap", "16777216"), run);
    assert.equal(viewer.orderText(history), ultra("order", conf, program), run);
    return history;
}

/**
 * Calls with the paths of a settings file and of a program file, in a folder that is removed
 * afterwards.
 */
function inFolder(act) {
    const folder = fs.mkdtempSync(path.join(os.tmpdir(), "viewer-"));
    try {
        act(path.join(folder, "conf.toml"), path.join(folder, "prog.s"));
    } finally {
        fs.rmSync(folder, { recursive: true });
    }
}

for (let stages = 1; stages <= 6; stages++) {
    test(`${RUNS_PER_SIZE} random runs with ${stages} stages`, OPTIONS, () => {
        const programs = examples().map((it) => path.join(it, "prog.s"));
        const draws = new Draws(1983 + stages);
        inFolder((conf) => {
            for (let run = 0; run < RUNS_PER_SIZE; run++) {
                fs.writeFileSync(conf, randomSettings(draws, stages));
                const program = draws.of(programs);
                tryRun(conf, program, program);
            }
        });
    });
}

test("random programs, in which everything happens that a switch can do", OPTIONS, () => {
    const account = new Account();
    inFolder((conf, program) => {
        for (let stages = 1; stages <= 6; stages++) {
            const draws = new Draws(100 * stages);
            for (let run = 0; run < (stages < 5 ? PROGRAMS_PER_SIZE : 3); run++) {
                fs.writeFileSync(conf, randomSettings(draws, stages));
                fs.writeFileSync(program, randomProgram(draws));
                account.note(tryRun(conf, program, fs.readFileSync(program, "utf8")));
            }
        }
    });
    assert.equal(account.kinds.size, 16);
    assert.equal(account.pairsInQueue, 2);
    assert.ok(account.stays > 0);
    assert.ok(account.besideMarked > 0);
    assert.deepEqual([...account.endings].sort(), [false, true]);
    assert.ok(Math.max(...account.heights) >= 4);
});
