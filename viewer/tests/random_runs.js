// Settings and programs for runs, drawn by a fixed rule from a number.
"use strict";

/** Numbers that look random and are the same on every machine (the generator mulberry32). */
class Draws {
    constructor(seed) {
        this.state = seed >>> 0;
    }

    next() {
        this.state = (this.state + 0x6d2b79f5) >>> 0;
        let mixed = this.state;
        mixed = Math.imul(mixed ^ (mixed >>> 15), mixed | 1);
        mixed ^= mixed + Math.imul(mixed ^ (mixed >>> 7), mixed | 61);
        return (mixed ^ (mixed >>> 14)) >>> 0;
    }

    from(least, most) {
        return least + (this.next() % (most - least + 1));
    }

    of(list) {
        return list[this.from(0, list.length - 1)];
    }
}

function initialCells(draws, count) {
    const cells = new Map();
    for (let left = draws.from(0, 3); left > 0; left--) {
        cells.set(draws.from(0, count - 1), draws.of([1, 2, 7, 65536, 4294967295]));
    }
    return [...cells].map(([cell, value]) => `[${cell}, ${value}]`).join(", ");
}

/** A settings file for a machine with so many stages. Larger machines run for fewer cycles. */
function randomSettings(draws, stages) {
    const cells = draws.from(1, 16);
    return [
        `stages = ${stages}`,
        `request_places = ${draws.of([2, 2, 3, 4, 6])}`,
        `reply_places = ${draws.of([4, 4, 5, 6, 8])}`,
        `wait_places = ${draws.of([0, 1, 1, 2, 4, 8])}`,
        `open = ${draws.of([1, 2, 2, 3, 8])}`,
        `cells = ${cells}`,
        `cycles = ${draws.from(3, stages < 4 ? 400 : 160)}`,
        `initial = [${initialCells(draws, cells << stages)}]`,
        "",
    ].join("\n");
}

/** Requests of all kinds for a few cells, most of them without a fence between. */
function randomRequests(draws) {
    const lines = [];
    for (let left = draws.from(8, 30); left > 0; left--) {
        const address = `r${draws.from(2, 5)}`;
        const data = `r${draws.from(1, 5)}`;
        const target = `r${draws.from(6, 15)}`;
        const requests = [
            `ld ${target} ${address}`,
            `st ${address} ${data}`,
            `faa ${target} ${address} ${data}`,
            `swap ${target} ${address} ${data}`,
        ];
        lines.push(draws.from(0, 20) === 0 ? "fence" : draws.of(requests));
    }
    return [...lines, "halt"];
}

/**
 * A program whose PEs begin after different times, and in which those with odd numbers make other
 * requests.
 */
function randomProgram(draws) {
    const cells = [2, 3, 4, 5].map((it) => `li r${it} ${draws.of([0, 0, 1, 2, 4, 8])}`);
    const mask = draws.of([0, 1, 3, 7, 31]);
    const delay = ["pid r1", "li r7 1", `li r8 ${mask}`, "and r8 r1 r8", "wait:", "jz r8 start", "sub r8 r8 r7", "jmp wait"];
    const start = [...delay, "start:", "and r6 r1 r7", ...cells, "jnz r6 odd"];
    return [...start, ...randomRequests(draws), "odd:", ...randomRequests(draws), ""].join("\n");
}

module.exports = { Draws, randomSettings, randomProgram };
