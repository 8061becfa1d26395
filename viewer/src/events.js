// The cycles in which something of a sort happens: acts, combinations, events of a cell or of a PE.
(function (viewer) {
    "use strict";

    /** Different cycles of a trace, the least first. What was before a part is in none of them. */
    function sorted(history, cycles) {
        const { first } = history.trace;
        return [...new Set(cycles)].filter((it) => it >= first).sort((a, b) => a - b);
    }

    function cyclesOfRequests(requests) {
        return requests.flatMap((it) => (it.answered === null ? [it.issued] : [it.issued, it.answered]));
    }

    /** Issues, combinations, acts and answers of a cell. */
    function cyclesOfCell(history, cell) {
        const ofCell = (it) => it.cell === cell;
        return sorted(history, [
            ...cyclesOfRequests(history.requests.filter(ofCell)),
            ...history.pairs.filter(ofCell).map((it) => it.cycle),
            ...history.acts.filter(ofCell).map((it) => it.cycle),
        ]);
    }

    /** Issues, combinations, acts, answers and faults of a PE. */
    function cyclesOfPe(history, pe) {
        const requests = history.requestsOfPe[pe] ?? [];
        const inTrees = requests.flatMap((request) => {
            const cycles = [];
            let tree = request;
            for (; tree.parent; tree = tree.parent) {
                cycles.push(tree.parent.cycle);
            }
            return tree.act ? [...cycles, tree.act.cycle] : cycles;
        });
        const faults = history.faults.filter((it) => it.pe === pe).map((it) => it.cycle);
        return sorted(history, [...cyclesOfRequests(requests), ...inTrees, ...faults]);
    }

    /**
     * What can be looked for: `sort` is `act`, `combination`, `cell` or `pe`, and `number` that of
     * the cell or PE.
     */
    function cyclesOf(history, sort, number) {
        switch (sort) {
            case "act":
                return sorted(history, history.acts.map((it) => it.cycle));
            case "combination":
                return sorted(history, history.pairs.map((it) => it.cycle));
            case "cell":
                return cyclesOfCell(history, number);
            default:
                return cyclesOfPe(history, number);
        }
    }

    /**
     * The next of the cycles after this one, or where `direction` is -1 the one before it; or null.
     */
    function nextCycle(cycles, cycle, direction) {
        const found = direction > 0 ? cycles.find((it) => it > cycle) : cycles.findLast((it) => it < cycle);
        return found ?? null;
    }

    Object.assign(viewer, { cyclesOf, nextCycle });
})((globalThis.viewer ??= {}));
