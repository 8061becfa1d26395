// A trace: its bytes, where each cycle is, and what the text says of a cycle, read when it is asked
// for.
(function (viewer) {
    "use strict";

    const { Cursor, Fault, Net, MOST_STAGES, emptyCycle, readCycle, readEnd, traceIndex } = viewer;
    const HEAD = "ultra trace 2\n";
    const MOST_CYCLE = 1_000_000;
    const WORDS_OF_PART = ["all", "events", "end"];
    /** So many bytes of a text that was cut off decide how large its machine is taken to be. */
    const GUESS_BYTES = 2_000_000;
    const KEPT_CYCLES = 64;
    const NEWLINE = 10;

    function lineAt(bytes, at) {
        let line = 1;
        for (let next = bytes.indexOf(10); next >= 0 && next < at; next = bytes.indexOf(10, next + 1)) {
            line += 1;
        }
        return line;
    }

    class Trace {
        /**
         * Throws a Fault with its line where the text isn't a trace or is cut off before its first
         * cycle.
         */
        constructor(bytes) {
            this.bytes = bytes;
            this.kept = new Map();
            this.end = null;
            this.cut = null;
            this.withLine(() => {
                const cursor = new Cursor(bytes);
                cursor.take(HEAD);
                this.part = this.readPart(cursor);
                this.body = cursor.at;
                this.index = traceIndex(bytes, this.body, this.part ? 2 : 1);
                this.checkStart();
                this.dropCutCycle();
                this.readEnd();
                this.net = this.end ? this.netOfEnd() : this.guessedNet();
                this.isGuess = this.end === null || this.end.pes.length !== this.net.size;
                this.noteCut(bytes.at(-1) !== NEWLINE);
            });
        }

        /** The number of cycles of which the text has at least the first line. */
        get count() {
            return this.index.offsets.length;
        }

        /** The number of the first cycle: not 0 in a part that begins later. */
        get first() {
            return this.part?.from ?? 0;
        }

        get last() {
            return this.first + this.count - 1;
        }

        /** Whether the last cycle of the text is the last of the run. */
        get isToEnd() {
            return this.end !== null && (this.part === null || this.last < this.part.to);
        }

        /**
         * Reads the line `part A B WORD`, if it is next: which cycles of the run were asked for. A
         * part without the state of its cycles can't be shown.
         */
        readPart(cursor) {
            if (!cursor.takes("part ")) {
                return null;
            }
            const from = cursor.number(MOST_CYCLE, "the number of a cycle");
            cursor.take(" ");
            const to = cursor.number(MOST_CYCLE, "the number of a cycle");
            cursor.take(" ");
            const start = cursor.at;
            const word = WORDS_OF_PART[cursor.takeOneOf(WORDS_OF_PART, "'all', 'events' or 'end'")];
            cursor.take("\n");
            if (word !== "all") {
                cursor.fail(`a part with its whole state (--only all): one with --only ${word} has nothing to draw`, start);
            }
            return { from, to };
        }

        /** Reads; a fault gets its line, and whether the text was cut off there. */
        withLine(read) {
            try {
                read();
            } catch (fault) {
                if (fault instanceof Fault && fault.line === undefined) {
                    fault.line = lineAt(this.bytes, fault.at);
                    fault.isCut = fault.at >= this.bytes.length;
                }
                throw fault;
            }
        }

        /** Reads up to where the text was cut off; another fault is thrown, with its line. */
        unlessCut(read) {
            try {
                this.withLine(read);
            } catch (fault) {
                if (!fault.isCut) {
                    throw fault;
                }
            }
        }

        /** The text has at least the line of cycle 0, right after its head. */
        checkStart() {
            const cursor = new Cursor(this.bytes, this.body);
            if (this.part && cursor.takes("end ")) {
                cursor.fail(`cycle ${this.first}: this part has no cycle, since the run ended before it`, this.body);
            }
            cursor.take(`cycle ${this.first}`);
            cursor.take("\n");
        }

        /** A last line `cycle C` that isn't whole is no cycle. */
        dropCutCycle() {
            const { offsets } = this.index;
            const last = offsets.list[offsets.length - 1];
            if (this.bytes.indexOf(10, last) >= 0) {
                return;
            }
            const cursor = new Cursor(this.bytes, last);
            this.unlessCut(() => readCycle(cursor, this.bytes.length, null, emptyCycle(this.last)));
            offsets.length -= 1;
            this.bytes = this.bytes.subarray(0, last);
        }

        offset(cycle) {
            return this.index.offsets.list[cycle - this.first];
        }

        line(cycle) {
            return this.index.lines.list[cycle - this.first];
        }

        offsetAfter(cycle) {
            return cycle < this.last ? this.offset(cycle + 1) : (this.index.end?.offset ?? this.bytes.length);
        }

        /**
         * Reads the lines from `end` on. A text that is cut off there keeps what it has of them.
         */
        readEnd() {
            if (!this.index.end) {
                return;
            }
            const end = { isQuiet: null, cells: [], pes: [] };
            this.unlessCut(() => {
                readEnd(new Cursor(this.bytes, this.index.end.offset), end);
                this.end = end;
            });
        }

        /**
         * The network as large as the end says; where more places occur the end itself was cut off.
         */
        netOfEnd() {
            const net = new Net(Math.log2(this.end.pes.length));
            if (this.leastStages() <= net.stages) {
                return net;
            }
            return this.fittingNet() ?? net;
        }

        leastStages() {
            const { stage, position } = this.index.greatest;
            let stages = stage + 1;
            while (1 << stages <= position) {
                stages += 1;
            }
            return stages;
        }

        /** The smallest network in which each message of the text's beginning is on its way. */
        fittingNet() {
            for (let stages = this.leastStages(); stages <= MOST_STAGES; stages++) {
                const net = new Net(stages);
                if (this.fits(net)) {
                    return net;
                }
            }
            return null;
        }

        guessedNet() {
            return this.fittingNet() ?? new Net(Math.min(this.leastStages(), MOST_STAGES));
        }

        fits(net) {
            for (let cycle = this.first; cycle <= this.last && this.offset(cycle) < GUESS_BYTES; cycle++) {
                try {
                    this.read(cycle, net);
                } catch (fault) {
                    if (fault instanceof Fault) {
                        return false;
                    }
                    throw fault;
                }
            }
            return true;
        }

        /**
         * Where the text was cut off: its number of whole lines, and whether the last cycle may
         * lack some.
         */
        noteCut(isInLine) {
            if (this.isGuess) {
                const lines = lineAt(this.bytes, this.bytes.length) - 1;
                this.cut = { lines, isInCycle: this.index.end === null, isInLine };
                this.end = null;
            }
        }

        /** What the text says of a cycle. Throws a Fault with its line. */
        read(cycle, net = this.net) {
            const found = emptyCycle(cycle);
            const cursor = new Cursor(this.bytes, this.offset(cycle));
            this.unlessCut(() => readCycle(cursor, this.offsetAfter(cycle), net, found));
            return found;
        }

        /** The same, from a few cycles that are kept. */
        cycle(number) {
            const kept = this.kept.get(number) ?? this.read(number);
            this.kept.delete(number);
            this.kept.set(number, kept);
            if (this.kept.size > KEPT_CYCLES) {
                this.kept.delete(this.kept.keys().next().value);
            }
            return kept;
        }

        /**
         * The state before a cycle: that after the one before it, or the empty machine. Before the first
         * cycle of a part it isn't known, and is null.
         */
        before(number) {
            if (number === this.first) {
                return number === 0 ? emptyCycle(-1) : null;
            }
            return this.cycle(number - 1);
        }

        /** A cycle's lines, as they are in the text. */
        text(number) {
            const bytes = this.bytes.subarray(this.offset(number), this.offsetAfter(number));
            return new TextDecoder("latin1").decode(bytes);
        }
    }

    /** The text of a whole trace, written from what was read. */
    function traceText(trace) {
        const cycles = Array.from({ length: trace.count }, (_, index) => viewer.cycleText(trace.read(trace.first + index)));
        const part = trace.part ? `part ${trace.part.from} ${trace.part.to} all\n` : "";
        return [HEAD, part, ...cycles, trace.end ? viewer.endText(trace.end) : ""].join("");
    }

    Object.assign(viewer, { Trace, traceText });
})((globalThis.viewer ??= {}));
