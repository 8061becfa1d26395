// What `ultra steps` writes: each step of a PE, and each value that comes to a register.
//
// A long trace has millions of steps. So they are kept in columns of numbers, and each text of an
// instruction once.
(function (viewer) {
    "use strict";

    const { Fault } = viewer;
    const LINE = /^(\d+) (?:step (\d+) (\d+) (.+)|reply (\d+) r(\d+)=(\d+) (\d+)\.(\d+)@(\d+))$/;
    const SETS = / r(\d+)=(\d+)$/;
    const ISSUES = / (\d+)\.(\d+)@(\d+) (load|store|faa|swap)( \d+)?$/;
    const FAULTS = /(?: @(\d+))? (f1|f2)$/;
    const NO_CELL = -1;

    function fail(line, expected) {
        const fault = new Fault(0, expected);
        fault.line = line;
        throw fault;
    }

    /** What a step's line has behind the place, in its parts. Only one of the patterns can fit. */
    function partsOf(rest) {
        const last = rest.slice(rest.lastIndexOf(" ") + 1);
        const set = last.includes("=") ? SETS.exec(rest) : null;
        const issue = !set && rest.includes("@") ? ISSUES.exec(rest) : null;
        const fault = last === "f1" || last === "f2" ? FAULTS.exec(rest) : null;
        return { instruction: rest.slice(0, (set ?? issue ?? fault)?.index), set, issue, fault };
    }

    /** Numbers one after another, as many as come. */
    class Column {
        /** @param {Uint32ArrayConstructor | Int32ArrayConstructor | Uint16ArrayConstructor} Kind */
        constructor(Kind) {
            this.items = new Kind(16);
            this.length = 0;
        }

        push(value) {
            if (this.length === this.items.length) {
                const more = this.items.slice();
                const Kind = /** @type {Uint32ArrayConstructor} */ (this.items.constructor);
                this.items = new Kind(2 * this.length);
                this.items.set(more);
            }
            this.items[this.length++] = value;
        }

        at(index) {
            return this.items[index];
        }

        /** The index of the first number that is greater; the numbers never fall. */
        after(value) {
            let low = 0;
            let high = this.length;
            while (low < high) {
                const middle = (low + high) >> 1;
                if (this.items[middle] <= value) {
                    low = middle + 1;
                } else {
                    high = middle;
                }
            }
            return low;
        }
    }

    /** The number of the request in columns that has this cycle and cell, or null. */
    function numberAt({ cycles, cells, requests }, cycle, cell) {
        const index = cycles.after(cycle) - 1;
        return index >= 0 && cycles.at(index) === cycle && cells.at(index) === cell ? requests.at(index) : null;
    }

    class StepsOfPe {
        /** `instructions` are the texts to which the steps' numbers point. */
        constructor(instructions) {
            this.instructions = instructions;
            this.cycles = new Column(Uint32Array);
            this.places = new Column(Uint32Array);
            this.texts = new Column(Uint32Array);
            this.cells = new Column(Int32Array);
            /** The numbers of the requests that steps issue, where they have a cell. */
            this.requests = new Column(Uint32Array);
            /** The replies that set a register: a PE gets at most one in a cycle. */
            this.replies = { cycles: new Column(Uint32Array), cells: new Column(Int32Array), requests: new Column(Uint32Array) };
            /** The fault of the last step, after which there is none. */
            this.fault = null;
            /** By register: the cycles in which values came to it, by steps and by replies, and the values. */
            this.values = Array.from({ length: 16 }, () => ({ cycles: new Column(Uint32Array), values: new Column(Uint32Array) }));
        }

        get count() {
            return this.cycles.length;
        }

        add(cycle, place, text, { issue, fault }) {
            this.cycles.push(cycle);
            this.places.push(place);
            this.texts.push(text);
            this.cells.push(issue ? Number(issue[3]) : NO_CELL);
            this.requests.push(issue ? Number(issue[2]) : 0);
            this.fault = fault?.[2] ?? null;
        }

        set(register, cycle, value, line) {
            if (register >= this.values.length) {
                fail(line, "a register below 16");
            }
            this.values[register].cycles.push(cycle);
            this.values[register].values.push(value);
        }

        reply(cycle, cell, request) {
            this.replies.cycles.push(cycle);
            this.replies.cells.push(cell);
            this.replies.requests.push(request);
        }

        /** The number of the request to a cell that is issued in a cycle, or null. */
        issuedAt(cycle, cell) {
            return numberAt(this, cycle, cell);
        }

        /** The number of the request to a cell whose reply sets a register in a cycle, or null. */
        answeredAt(cycle, cell) {
            return numberAt(this.replies, cycle, cell);
        }

        /** A step by its number, or undefined. */
        step(index) {
            if (index < 0 || index >= this.count) {
                return undefined;
            }
            const cell = this.cells.at(index);
            return {
                cycle: this.cycles.at(index), place: this.places.at(index), instruction: this.instructions[this.texts.at(index)],
                cell: cell === NO_CELL ? null : cell, fault: index === this.count - 1 ? this.fault : null,
            };
        }

        /** The last step up to a cycle, and the next one; each may be undefined. */
        around(cycle) {
            const index = this.cycles.after(cycle);
            return { last: this.step(index - 1), next: this.step(index) };
        }

        /** The registers after a cycle that were set, each with the cycle in which it last was. */
        registersAt(cycle) {
            const found = new Map();
            this.values.forEach(({ cycles, values }, register) => {
                const index = cycles.after(cycle) - 1;
                if (index >= 0) {
                    found.set(register, { cycle: cycles.at(index), value: values.at(index) });
                }
            });
            return found;
        }

        /** The cycle of the step after which the PE makes none: a halt or a fault; or null. */
        get stopped() {
            const last = this.step(this.count - 1);
            return last && isStop(last) ? last.cycle : null;
        }
    }

    function isStop(step) {
        return step.instruction === "halt" || step.fault !== null;
    }

    /** The steps of all PEs. Throws a Fault with its line where the text isn't one of steps. */
    class Steps {
        /** `isOfPart` says that they may be those of a part of a run, also where there are none. */
        constructor(text, isOfPart = false) {
            this.isOfPart = isOfPart;
            this.pes = new Map();
            this.first = null;
            this.last = 0;
            this.instructions = [];
            this.numbers = new Map();
            let line = 0;
            for (let at = 0; at < text.length; ) {
                const end = text.indexOf("\n", at);
                line += 1;
                if (end < 0) {
                    fail(line, "the end of the line");
                }
                const cycle = this.readLine(text.slice(at, end), line);
                if (cycle < this.last) {
                    fail(line, "cycles that grow");
                }
                this.first ??= cycle;
                this.last = cycle;
                at = end + 1;
            }
        }

        readLine(text, line) {
            const found = LINE.exec(text) ?? fail(line, "'CYCLE step PE PLACE INSTRUCTION' or 'CYCLE reply PE rD=V P.N@A'");
            const cycle = Number(found[1]);
            const pe = this.of(Number(found[2] ?? found[5]));
            if (found[2] === undefined) {
                pe.set(Number(found[6]), cycle, Number(found[7]), line);
                pe.reply(cycle, Number(found[10]), Number(found[9]));
                return cycle;
            }
            const parts = partsOf(found[4]);
            pe.add(cycle, Number(found[3]), this.numberOf(parts.instruction), parts);
            if (parts.set) {
                pe.set(Number(parts.set[1]), cycle, Number(parts.set[2]), line);
            }
            return cycle;
        }

        /** The number of an instruction's text. */
        numberOf(instruction) {
            let number = this.numbers.get(instruction);
            if (number === undefined) {
                number = this.instructions.length;
                this.instructions.push(instruction);
                this.numbers.set(instruction, number);
            }
            return number;
        }

        of(pe) {
            if (!this.pes.has(pe)) {
                this.pes.set(pe, new StepsOfPe(this.instructions));
            }
            return this.pes.get(pe);
        }

        /** Whether the steps begin with the run, so that registers that weren't set are 0. */
        get isWhole() {
            return this.first === 0 || (this.first === null && !this.isOfPart);
        }

        /** The instructions that PEs execute, each with its place. */
        get listing() {
            const found = new Map();
            for (const { count, places, texts } of this.pes.values()) {
                for (let index = 0; index < count; index++) {
                    found.set(places.at(index), texts.at(index));
                }
            }
            const named = [...found].map(([place, number]) => ({ place, text: this.instructions[number] }));
            return named.filter((it) => it.text !== "end").sort((a, b) => a.place - b.place);
        }

        /** How many PEs stall in each of these cycles, or null where the steps don't begin with the run. */
        stalledIn(first, count, size) {
            if (!this.isWhole) {
                return null;
            }
            const found = new Uint16Array(count).fill(size);
            for (const { cycles, stopped } of this.pes.values()) {
                for (let index = 0; index < cycles.length; index++) {
                    found[cycles.at(index) - first] -= 1;
                }
                for (let index = stopped === null ? count : Math.max(0, stopped + 1 - first); index < count; index++) {
                    found[index] -= 1;
                }
            }
            return found;
        }
    }

    Object.assign(viewer, { Steps, isStop });
})((globalThis.viewer ??= {}));
