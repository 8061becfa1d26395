// A trace that is open: its history, the cycle of it that is shown, and what is selected in it.
(function (viewer) {
    "use strict";

    const { Trace, History, Execution, stepInTrace, visibleUnits, cellsAt, leavesOf, carrierAt } = viewer;
    const SMALL_BYTES = 3_000_000;
    /** So many cycles of a large trace are worked out before it is shown. */
    const FIRST_CYCLES = 200;
    const SLICE_CYCLES = 8;

    function isOf(message, request) {
        return message.cell === request.cell && (message.pe === request.pe || message.partner === request.pe);
    }

    /** The entries that are new in a cycle: those that came, and those that a combination made. */
    function arrivalsOf(step) {
        const keys = new Set();
        const add = (place, { pe, cell }) => keys.add(`${place} ${pe} ${cell}`);
        step?.moves.forEach((it) => add(it.to, it.message));
        step?.combinations.forEach((it) => {
            add(it.queue, it.old);
            add(it.wait, it.old);
        });
        return keys;
    }

    class OpenTrace {
        /** Throws a Fault with its line where the text isn't a trace. */
        constructor(name, bytes) {
            this.name = name;
            this.trace = new Trace(bytes);
            this.history = new History(this.trace);
            this.history.advance(bytes.length < SMALL_BYTES ? this.trace.count : FIRST_CYCLES);
            this.cycle = this.trace.first;
            this.execution = new Execution(this.history);
            /** The request or the act whose story is shown, or null. */
            this.selected = null;
            this.layoutCount = 0;
            this.fixShape();
        }

        get first() {
            return this.trace.first;
        }

        get last() {
            return this.trace.last;
        }

        /**
         * The sizes of the picture change only here, so that it doesn't move from cycle to cycle.
         */
        fixShape() {
            this.shape = structuredClone({ ...this.history.shape });
            this.layoutCount += 1;
        }

        /** Goes to a cycle, or to the one nearest to it. */
        goTo(cycle) {
            this.cycle = Math.max(this.first, Math.min(this.last, cycle));
        }

        /** Works out more of the history, for so many milliseconds. Throws a Fault with its line. */
        workFor(milliseconds) {
            const until = performance.now() + milliseconds;
            while (!this.history.isDone && performance.now() < until) {
                this.history.advance(SLICE_CYCLES);
            }
        }

        /** How much of what is shown isn't worked out yet: its cycle, and its request's answer. */
        unknownParts() {
            const isAhead = this.history.cycles <= this.cycle;
            const isOpen = this.selected?.request?.answered === null;
            return Number(isAhead) + Number(isOpen);
        }

        /** Whether a text without an end has all lines of its last cycle: then the rules allow it. */
        get isLastWhole() {
            const { trace, last } = this;
            return trace.before(last) !== null && stepInTrace(trace, trace.before(last), trace.cycle(last)) !== null;
        }

        /** Takes a text that belongs to the trace: settings, a program, or steps. */
        take(sort, text) {
            this.execution.take(sort, text);
        }

        findAct({ cycle, module }) {
            return this.history.acts.find((it) => it.cycle === cycle && it.module === module);
        }

        findRequest([pe, number]) {
            return this.history.requestsOfPe[pe]?.find((it) => it.number === number);
        }

        /** The cycles in which something of a sort happens, as far as that is worked out. */
        eventCycles(sort, number) {
            const key = `${sort} ${number} ${this.history.cycles}`;
            if (this.eventsKey !== key) {
                this.events = viewer.cyclesOf(this.history, sort, number);
                this.eventsKey = key;
            }
            return this.events;
        }

        /**
         * What the picture and the texts show. The form of the picture is `detail`, `folded` (only
         * what isn't empty) or `compact`. Throws a Fault where the rules don't allow the cycle.
         */
        view(form) {
            const { trace, history, cycle, shape } = this;
            const found = trace.cycle(cycle);
            const step = stepInTrace(trace, trace.before(cycle), found);
            return {
                trace, history, step, shape, form, cycle: found,
                visible: form === "folded" ? visibleUnits(trace.net, found, step) : null,
                layoutKey: `${this.layoutCount} ${form}`,
                cells: cellsAt(history, cycle, this.execution.settings),
                arrivals: arrivalsOf(step),
                request: this.selected?.request,
                selectedAct: this.selected?.act,
                isSelected: (message, after) => this.isSelected(message, after),
            };
        }

        /**
         * Whether a message that was there after a cycle carries a request that is shown, as far as
         * that is worked out.
         */
        isSelected(message, after) {
            const { request, act } = this.selected ?? {};
            const shown = act ? leavesOf(act.tree) : [request].filter(Boolean);
            const isOpen = (it) => it.issued <= after && after < (it.answered ?? this.history.cycles);
            return shown.filter(isOpen).some((it) => isOf(message, it) || isOf(message, carrierAt(it, after)));
        }
    }

    Object.assign(viewer, { OpenTrace });
})((globalThis.viewer ??= {}));
