// The lines of a trace from `end` on: how they are read, and how they are written.
(function (viewer) {
    "use strict";

    const { MOST_CELL, MOST_PE, MOST_WORD } = viewer;
    const STATES = ["running", "halted", "f1", "f2"];

    /** A number that isn't 0, since what is 0 isn't written. */
    function readNonzero(cursor) {
        const start = cursor.at;
        const word = cursor.number(MOST_WORD, "a word");
        return () => {
            if (word === 0) {
                cursor.fail("a word that isn't 0", start);
            }
            return word;
        };
    }

    function readCells(cursor) {
        const cells = [];
        let last = -1;
        while (cursor.takes("cell ")) {
            const start = cursor.at;
            const cell = cursor.number(MOST_CELL, "the number of a cell");
            cursor.take(" ");
            const value = readNonzero(cursor);
            cursor.take("\n");
            if (cell <= last) {
                cursor.fail(`a cell after ${last}`, start);
            }
            cells.push({ cell, value: value() });
            last = cell;
        }
        return cells;
    }

    function readRegisters(cursor) {
        const registers = [];
        while (cursor.takes(" r")) {
            const start = cursor.at;
            const register = cursor.number(15, "the number of a register");
            cursor.take("=");
            const value = readNonzero(cursor);
            if (registers.length > 0 && register <= registers.at(-1).register) {
                cursor.fail(`a register after r${registers.at(-1).register}`, start);
            }
            registers.push({ register, start, value });
        }
        cursor.take("\n");
        return registers.map(({ register, value }) => ({ register, value: value() }));
    }

    function readPes(cursor) {
        const pes = [];
        while (pes.length <= MOST_PE && cursor.takes("pe ")) {
            const start = cursor.at;
            const pe = cursor.number(MOST_PE, "the number of a PE");
            cursor.take(" ");
            const state = STATES[cursor.takeOneOf(STATES, "'running', 'halted', 'f1' or 'f2'")];
            cursor.take(" ");
            const counter = cursor.number(4096, "a program counter");
            const registers = readRegisters(cursor);
            if (pe !== pes.length) {
                cursor.fail(`'pe ${pes.length}'`, start);
            }
            pes.push({ pe, state, counter, registers });
        }
        return pes;
    }

    /** Whether a machine can have so many PEs: 2 to 64, a power of two. */
    function isMachineSize(count) {
        return count >= 2 && count <= MOST_PE + 1 && (count & (count - 1)) === 0;
    }

    /**
     * Reads the end into `end`, which keeps the parts that were read also if a later one has a
     * fault.
     */
    function readEnd(cursor, end) {
        cursor.take("end ");
        const isQuiet = cursor.takeOneOf(["quiet", "limit"], "'quiet' or 'limit'") === 0;
        cursor.take("\n");
        end.isQuiet = isQuiet;
        end.cells = readCells(cursor);
        end.pes = readPes(cursor);
        if (cursor.at < cursor.bytes.length) {
            failBehind(cursor, end.pes.length);
        }
        if (!isMachineSize(end.pes.length)) {
            cursor.fail(`'pe ${end.pes.length}'`);
        }
    }

    /** A fault behind so many lines `pe`. */
    function failBehind(cursor, count) {
        if (count === 0) {
            cursor.takeOneOf(["cell ", "pe "], "a line 'cell', or 'pe 0'");
        } else {
            cursor.takeOneOf(["pe "], `'pe ${count}' or the end of the text`);
        }
        cursor.fail("the end of the text");
    }

    function endText(end) {
        const cells = end.cells.map((it) => `cell ${it.cell} ${it.value}\n`);
        const pes = end.pes.map((it) => {
            const registers = it.registers.map(({ register, value }) => ` r${register}=${value}`);
            return `pe ${it.pe} ${it.state} ${it.counter}${registers.join("")}\n`;
        });
        return [`end ${end.isQuiet ? "quiet" : "limit"}\n`, ...cells, ...pes].join("");
    }

    Object.assign(viewer, { readEnd, endText });
})((globalThis.viewer ??= {}));
