// The whole run: every request from issue to answer, every combination, and every act with its
// tree.
//
// It is worked out from the trace alone, cycle by cycle, in slices, so that a long trace can be
// looked at meanwhile.
(function (viewer) {
    "use strict";

    const { Fault, emptyCycle, stepInTrace, positionOf, stageOf } = viewer;
    /** Lists and texts are drawn up to these sizes. */
    const MOST_SHOWN = 4;
    const MOST_TEXT = 26;

    function identityOf({ pe, cell }) {
        return cell * 64 + pe;
    }

    /**
     * The greatest number of entries and the longest text in places of each kind, up to what is
     * drawn.
     */
    class Shape {
        constructor() {
            this.counts = viewer.KINDS.map(() => 1);
            this.lengths = [9, 9, 14, 9, 9, 8];
            this.actLength = 20;
        }

        note(cycle) {
            for (const [place, list] of cycle.places) {
                const kind = viewer.kindOf(place);
                this.counts[kind] = Math.min(MOST_SHOWN, Math.max(this.counts[kind], list.length));
                if (this.lengths[kind] < MOST_TEXT) {
                    const longest = Math.max(...list.map((it) => viewer.entryText(it).length));
                    this.lengths[kind] = Math.min(MOST_TEXT, Math.max(this.lengths[kind], longest));
                }
            }
            for (const it of cycle.acts) {
                this.actLength = Math.max(this.actLength, viewer.actText(it).replace(/^act \d+ /, "").length);
            }
        }
    }

    class History {
        constructor(trace) {
            this.trace = trace;
            /** The first cycle that isn't worked out yet. */
            this.cycles = trace.first;
            this.shape = new Shape();
            this.requests = [];
            this.pairs = [];
            this.acts = [];
            this.faults = [];
            this.requestsOfPe = Array.from({ length: trace.net.size }, () => []);
            this.cells = new Map();
            /** @type {CycleText | null} */
            this.state = trace.before(trace.first);
            this.overview = new viewer.Overview(trace.count);
            /** The tree of each request that is on its way to memory, by its identity. */
            this.trees = new Map();
            /** The request of each open cell of a PE. */
            this.open = new Map();
            /** The steps of the PEs, where they name the requests of a part. */
            this.steps = null;
        }

        get isDone() {
            return this.cycles > this.trace.last;
        }

        /** Works out so many cycles more. Throws a Fault with its line. */
        advance(count) {
            const end = Math.min(this.trace.last + 1, this.cycles + count);
            while (this.cycles < end) {
                const cycle = this.trace.read(this.cycles);
                this.shape.note(cycle);
                this.absorb(cycle);
                this.state = cycle;
                this.cycles += 1;
            }
            if (this.isDone && this.trace.isToEnd) {
                this.checkEnd();
            }
        }

        absorb(cycle) {
            const step = stepInTrace(this.trace, this.state, cycle);
            if (!step) {
                this.absorbAlone(cycle);
                return;
            }
            cycle.got.forEach((it) => this.answer(it, cycle.number));
            cycle.acts.forEach((it, index) => this.serve(it, cycle.number, 1 + cycle.got.length + index));
            cycle.faults.forEach(({ pe }) => this.faults.push({ pe, cycle: cycle.number }));
            step.combinations.forEach((it) => this.combine(it, cycle.number));
            step.issues.forEach((it) => this.issue(it.request, cycle.number));
            this.noteNumbers(cycle, step);
        }

        /**
         * Takes up a cycle of which it isn't known what moved: the first of a part, or the last of a
         * text that was cut off.
         */
        absorbAlone(cycle) {
            if (cycle.number === this.trace.first && this.trace.first > 0) {
                viewer.beginPart(this, cycle);
                const nothing = { combinations: [], issues: [] };
                this.noteNumbers(cycle, nothing);
            }
        }

        noteNumbers(cycle, step) {
            this.overview.note(cycle.number - this.trace.first, {
                open: this.open.size,
                combined: step.combinations.length,
                acts: cycle.acts.length,
                issued: step.issues.length,
                answered: cycle.got.length,
            });
        }

        /**
         * The number of a request that is issued now. In a part that begins later it is known by the
         * steps of its PE, else it is null: how many came before isn't known.
         */
        numberOf(pe, cell, cycle) {
            return this.trace.first > 0 ? (this.steps?.of(pe).issuedAt(cycle, cell) ?? null) : this.requestsOfPe[pe].length;
        }

        /** Takes the numbers of requests from steps, where the trace begins later and doesn't give them. */
        takeNumbers(steps) {
            if (this.trace.first > 0) {
                this.steps = steps;
                this.requests.forEach((it) => {
                    it.number ??= steps.of(it.pe).issuedAt(it.issued, it.cell) ?? steps.of(it.pe).answeredAt(it.answered ?? -1, it.cell);
                });
            }
        }

        issue({ pe, cell, kind, word }, cycle) {
            const number = this.numberOf(pe, cell, cycle);
            const later = { parent: null, act: null, answered: null, value: null };
            const request = { pe, number, cell, kind, word, issued: cycle, ...later };
            this.add(request);
            this.trees.set(identityOf(request), request);
        }

        /** A request that is open now. */
        add(request) {
            this.requests.push(request);
            this.requestsOfPe[request.pe].push(request);
            this.open.set(identityOf(request), request);
        }

        combine({ queue, old, later, isOldFirst, sent }, cycle) {
            const [oldTree, newTree] = [old, later].map((it) => this.trees.get(identityOf(it)));
            const { cell, kind, word } = sent;
            const where = { cycle, stage: stageOf(queue), position: positionOf(queue) };
            const trees = { old: oldTree, later: newTree, parent: null, act: null };
            const found = { ...where, cell, kind, word, isOldFirst, ...trees };
            oldTree.parent = found;
            newTree.parent = found;
            this.pairs.push(found);
            this.trees.set(identityOf(old), found);
            this.trees.delete(identityOf(later));
        }

        serve({ module, request, value, now }, cycle, lineInCycle) {
            const identity = identityOf(request);
            const tree = this.trees.get(identity);
            const act = { cycle, module, cell: request.cell, request, value, now, tree, index: this.acts.length };
            this.checkValue(act, lineInCycle);
            this.trees.delete(identity);
            tree.act = act;
            this.acts.push(act);
            this.noteCell(act);
        }

        noteCell(act) {
            const found = this.cells.get(act.cell) ?? { first: act.value, acts: [] };
            found.acts.push(act);
            this.cells.set(act.cell, found);
        }

        /** What an act answers is what the act before it left in the cell. */
        checkValue(act, lineInCycle) {
            const now = this.cells.get(act.cell)?.acts.at(-1).now;
            if (now === undefined || act.value === null || act.value === now) {
                return;
            }
            this.failAt(this.trace.line(act.cycle) + lineInCycle, `the value ${now} of cell ${act.cell}`);
        }

        answer(reply, cycle) {
            const request = this.open.get(identityOf(reply));
            request.answered = cycle;
            request.value = reply.value;
            request.number ??= this.steps?.of(reply.pe).answeredAt(cycle, reply.cell) ?? null;
            this.open.delete(identityOf(reply));
        }

        failAt(line, expected) {
            const fault = new Fault(0, expected);
            fault.line = line;
            throw fault;
        }

        /**
         * The end has to say whether the machine is quiet, and the values that the acts left in the
         * cells.
         */
        checkEnd() {
            const { end, index } = this.trace;
            const isQuiet = this.state.places.size === 0 && end.pes.every((it) => it.state !== "running");
            if (isQuiet !== end.isQuiet) {
                this.failAt(index.end.line, isQuiet ? "'end quiet'" : "'end limit'");
            }
            const values = new Map(end.cells.map((it) => [it.cell, it.value]));
            for (const [cell, { acts }] of this.cells) {
                const now = acts.at(-1).now;
                if ((values.get(cell) ?? 0) !== now) {
                    const before = end.cells.filter((it) => it.cell < cell).length;
                    const expected = now === 0 ? `no line 'cell ${cell}'` : `'cell ${cell} ${now}'`;
                    this.failAt(index.end.line + 1 + before, expected);
                }
            }
        }
    }

    Object.assign(viewer, { History, Shape });
})((globalThis.viewer ??= {}));
