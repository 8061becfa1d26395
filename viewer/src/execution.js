// What the PEs of a trace do, from the program's text and the text of its steps.
(function (viewer) {
    "use strict";

    const { Fault, Steps, isStop, readProgram, readSettings } = viewer;
    const MEMORY = ["ld", "st", "faa", "swap"];

    /** The registers that an instruction names. */
    function registersOf(instruction) {
        return [...instruction.matchAll(/\br(\d+)\b/g)].map((it) => Number(it[1]));
    }

    function misfit(reason) {
        const fault = new Fault(0, reason);
        fault.isMisfit = true;
        throw fault;
    }

    class Execution {
        /** `history` is that of the trace to which the texts belong. */
        constructor(history) {
            this.history = history;
            this.trace = history.trace;
            this.program = null;
            this.steps = null;
            this.settings = null;
            this.knownListing = null;
        }

        /** Takes a text. Throws a Fault where it isn't of its sort, or doesn't belong to the trace. */
        take(sort, text) {
            this.knownListing = null;
            if (sort === "steps") {
                const steps = new Steps(text, this.trace.first > 0);
                this.check(steps, this.program);
                this.steps = steps;
                this.history.takeNumbers(steps);
                const { first, count, net } = this.trace;
                this.history.overview.stalled = steps.stalledIn(first, count, net.size);
            } else if (sort === "program") {
                const program = readProgram(text);
                this.check(this.steps, program);
                this.program = program;
            } else {
                this.takeSettings(readSettings(text));
            }
        }

        takeSettings(settings) {
            const { net } = this.trace;
            if (settings.stages !== net.stages) {
                misfit(`they have ${settings.stages ?? "no"} stages, and the trace has ${net.stages}`);
            }
            this.settings = settings;
        }

        check(steps, program) {
            if (steps) {
                this.checkNumbers(steps);
                this.checkIssues(steps);
                // steps of a part that ends before the run say nothing of its end
                if (this.trace.isToEnd || steps.last > this.trace.last) {
                    this.checkRegisters(steps);
                }
                this.checkPlaces(steps, program);
            }
        }

        checkNumbers(steps) {
            for (const pe of steps.pes.keys()) {
                if (pe >= this.trace.net.size) {
                    misfit(`they have a PE ${pe}, and the trace has ${this.trace.net.size}`);
                }
            }
        }

        /** The requests of a part that are known by now have their steps, in the cycles that both have. */
        checkIssues(steps) {
            for (const { pe, cell, issued } of this.trace.first > 0 ? this.history.requests : []) {
                const isCovered = issued > this.trace.first && issued >= steps.first && issued <= steps.last;
                if (isCovered && steps.of(pe).issuedAt(issued, cell) === null) {
                    misfit(`PE ${pe} issues a request to cell ${cell} in cycle ${issued} of the trace, and not by them`);
                }
            }
        }

        /** The steps have to give the registers and the states of the trace's end. */
        checkRegisters(steps) {
            const pes = this.trace.end?.pes ?? [];
            for (const { pe, state, registers } of pes) {
                const found = steps.of(pe).registersAt(Infinity);
                const values = new Map(registers.map((it) => [it.register, it.value]));
                for (let register = 0; register < 16; register++) {
                    const value = found.get(register)?.value ?? (steps.isWhole ? 0 : undefined);
                    const end = values.get(register) ?? 0;
                    if (value !== undefined && value !== end) {
                        misfit(`by them r${register} of PE ${pe} is ${value}, and at the end of the trace it is ${end}`);
                    }
                }
                const isRunning = steps.of(pe).stopped === null;
                if (steps.isWhole && isRunning !== (state === "running")) {
                    misfit(`by them PE ${pe} ${isRunning ? "runs on" : "stops"}, and at the end of the trace it is ${state}`);
                }
            }
        }

        /** The instruction of each step is that of the program at its place. */
        checkPlaces(steps, program) {
            if (!program) {
                return;
            }
            const numbers = program.instructions.map((it) => steps.numbers.get(it.text));
            const end = steps.numbers.get("end");
            for (const [pe, list] of steps.pes) {
                for (let index = 0; index < list.count; index++) {
                    const place = list.places.at(index);
                    if (list.texts.at(index) !== (place < numbers.length ? numbers[place] : end)) {
                        const { cycle, instruction } = list.step(index);
                        const text = program.instructions[place]?.text ?? "end";
                        misfit(`in cycle ${cycle} PE ${pe} executes '${instruction}' at ${place}, where the program has '${text}'`);
                    }
                }
            }
        }

        /** The instructions by their places: those of the program, or those that the steps name. */
        get listing() {
            this.knownListing ??= this.program
                ? this.program.instructions.map(({ text, line }, place) => ({ place, line, text: this.program.lines[line - 1], canonical: text }))
                : (this.steps?.listing ?? []).map(({ place, text }) => ({ place, line: null, text, canonical: text }));
            return this.knownListing;
        }

        /** The open requests of a PE as it steps in a cycle. */
        openOf(pe, cycle) {
            const isOpen = (it) => it.issued < cycle && (it.answered === null || it.answered > cycle);
            return this.history.requestsOfPe[pe].filter(isOpen);
        }

        /** The place of a PE after a cycle, or null where that isn't known. */
        placeOf(pe, cycle) {
            const { last, next } = this.steps.of(pe).around(cycle);
            return last && isStop(last) ? last.place : (next?.place ?? this.trace.end?.pes[pe]?.counter ?? null);
        }

        /** Where a PE is after a cycle: its place, its state, and the cells on which it waits if it stalls. */
        peAt(pe, cycle) {
            const { last, next } = this.steps.of(pe).around(cycle);
            const place = this.placeOf(pe, cycle);
            if (last && isStop(last)) {
                return { place, state: last.fault ?? "halted", cells: [] };
            }
            if (last?.cycle === cycle) {
                return { place, state: "running", cells: [] };
            }
            return { place, state: last || this.steps.isWhole ? "stalled" : "unknown", cells: this.cellsAwaited(pe, cycle, place, next) };
        }

        /** The cells on which a PE waits that stalls at a place. */
        cellsAwaited(pe, cycle, place, next) {
            const instruction = next?.instruction ?? this.program?.instructions[place]?.text ?? "";
            const open = this.openOf(pe, cycle);
            const named = registersOf(instruction);
            const awaited = open.filter((it) => named.includes(this.targetOf(pe, it)));
            if (awaited.length > 0) {
                return awaited.map((it) => it.cell);
            }
            const isSame = MEMORY.includes(instruction.split(" ")[0]) && open.some((it) => it.cell === next?.cell);
            return isSame ? [next.cell] : open.map((it) => it.cell);
        }

        /** The register that an open request of a PE will set, or undefined. */
        targetOf(pe, { cell, issued }) {
            const { last } = this.steps.of(pe).around(issued);
            const isIts = last?.cycle === issued && last.cell === cell && !last.instruction.startsWith("st ");
            return isIts ? registersOf(last.instruction)[0] : undefined;
        }

        /** The registers of a PE after a cycle: unknown ones have the value null. */
        registersAt(pe, cycle) {
            const found = this.steps.of(pe).registersAt(cycle);
            return Array.from({ length: 16 }, (_, register) => {
                const value = found.get(register)?.value ?? (this.steps.isWhole ? 0 : null);
                return { register, value, isNew: found.get(register)?.cycle === cycle };
            });
        }
    }

    Object.assign(viewer, { Execution });
})((globalThis.viewer ??= {}));
