// The cells that aren't 0 after a cycle, from the acts and from the end of the trace.
(function (viewer) {
    "use strict";

    /** The last act on a cell up to a cycle, or null. */
    function lastAct(acts, cycle) {
        let low = 0;
        let high = acts.length;
        while (low < high) {
            const middle = (low + high) >> 1;
            if (acts[middle].cycle <= cycle) {
                low = middle + 1;
            } else {
                high = middle;
            }
        }
        return low === 0 ? null : acts[low - 1];
    }

    /**
     * The cells that may have a value, by number: those on which a module has acted, and those of
     * the end.
     */
    function cellsOf(history) {
        if (history.sortedCount !== history.cells.size) {
            const ends = history.trace.end?.cells ?? [];
            const cells = new Set([...history.cells.keys(), ...ends.map((it) => it.cell)]);
            history.sortedCells = [...cells].sort((a, b) => a - b);
            history.endValues = new Map(ends.map((it) => [it.cell, it.value]));
            history.sortedCount = history.cells.size;
        }
        return history.sortedCells;
    }

    /**
     * The value before a cell's first act, or undefined where it isn't known. A whole trace shows it
     * by that act, unless it is a store; the settings name it, too. A part doesn't know it, nor
     * the value of a cell on which nobody acts in it, unless it goes on to the end of the run.
     */
    function valueBefore(history, cell, settings) {
        const { first, isToEnd } = history.trace;
        const known = history.cells.get(cell);
        if (settings && first === 0) {
            return settings.initial.get(cell) ?? 0;
        }
        if (known) {
            return first === 0 ? known.first : null;
        }
        if (!history.isDone) {
            return undefined;
        }
        return isToEnd || first === 0 && history.trace.part === null ? history.endValues.get(cell) : null;
    }

    /**
     * The cells whose value after the cycle isn't 0, by number; in a part, one that isn't known has
     * the value null. A cell on which nobody acts keeps the value of the end. In a whole trace one
     * that is stored to first is left out until then. Nothing is known after a cycle that isn't
     * worked out yet.
     */
    function cellsAt(history, cycle, settings = null) {
        if (cycle >= history.cycles) {
            return [];
        }
        const isPart = history.trace.part !== null;
        const found = [];
        for (const cell of cellsOf(history)) {
            const acts = history.cells.get(cell)?.acts ?? [];
            const act = lastAct(acts, cycle);
            const value = act ? act.now : valueBefore(history, cell, settings);
            if (value || (isPart && value === null)) {
                found.push({ cell, value, isNew: act?.cycle === cycle });
            }
        }
        return found;
    }

    /** What is said of a cycle after which no cell is known to have a value. */
    function noCellsText(history, cycle) {
        if (cycle >= history.cycles) {
            return "Not worked out yet.";
        }
        const known = history.isDone ? "the trace says" : "the trace is worked out";
        return history.trace.part ? `No cell is known to have a value, as far as ${known}.` : `Every cell is 0, as far as ${known}.`;
    }

    Object.assign(viewer, { cellsAt, noCellsText });
})((globalThis.viewer ??= {}));
