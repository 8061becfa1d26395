// The requests that are open where a part of a trace begins, as far as its first cycle shows them.
(function (viewer) {
    "use strict";

    const { WAIT, OUT, REP, kindOf, stageOf, positionOf } = viewer;

    function keyOf({ pe, cell }) {
        return cell * 64 + pe;
    }

    /** What the lists of a cycle have: the messages on their way by their request, and the records by stage. */
    function messagesOf({ places }) {
        const carriers = new Map();
        const records = [];
        for (const [place, list] of places) {
            for (const entry of list) {
                if (kindOf(place) === WAIT) {
                    records.push({ place, entry });
                } else {
                    carriers.set(keyOf(entry), { entry, isReply: kindOf(place) === OUT || kindOf(place) === REP });
                }
            }
        }
        records.sort((a, b) => stageOf(a.place) - stageOf(b.place));
        return { carriers, records };
    }

    /** A request that was issued before the part, or in its first cycle; its operation may be unknown. */
    function requestBefore(history, { pe, cell }, operation) {
        const { kind = null, word = 0 } = operation ?? {};
        const later = { parent: null, act: null, answered: null, value: null };
        return { pe, number: null, cell, kind, word, issued: history.trace.first - 1, isBefore: true, ...later };
    }

    /** The pair of which a record is left. When it was made isn't known. */
    function pairOf(history, { place, entry }, old, later) {
        const where = { cycle: history.trace.first - 1, stage: stageOf(place), position: positionOf(place) };
        const isOldFirst = entry.giveOld.kind !== "fixed";
        return { ...where, cell: entry.cell, kind: null, word: 0, isOldFirst, old, later, parent: null, act: null };
    }

    /**
     * Begins a history with the first cycle of a part. A request is seen by its message or by a
     * record; what it asks for is known where its message has combined with none.
     */
    function beginPart(history, cycle) {
        const { carriers, records } = messagesOf(cycle);
        const combined = new Set(records.map(({ entry }) => keyOf(entry)));
        const trees = new Map();
        const begin = (identity, operation) => {
            const request = requestBefore(history, identity, operation);
            history.add(request);
            trees.set(keyOf(identity), request);
        };
        for (const [key, { entry, isReply }] of carriers) {
            begin(entry, isReply || combined.has(key) ? null : entry);
        }
        records.forEach(({ entry }) => begin({ pe: entry.partner, cell: entry.cell }, null));
        for (const record of records) {
            const partner = keyOf({ pe: record.entry.partner, cell: record.entry.cell });
            const [old, later] = [trees.get(keyOf(record.entry)), trees.get(partner)];
            const pair = pairOf(history, record, old, later);
            old.parent = pair;
            later.parent = pair;
            trees.set(keyOf(record.entry), pair);
            trees.delete(partner);
        }
        for (const [key, tree] of trees) {
            if (!carriers.get(key)?.isReply) {
                history.trees.set(key, tree);
            }
        }
        cycle.acts.forEach((it) => noteAct(history, trees, cycle.number, it));
        cycle.faults.forEach(({ pe }) => history.faults.push({ pe, cycle: cycle.number }));
    }

    /** An act of the first cycle, whose reply is still in the module. */
    function noteAct(history, trees, cycle, { module, request, value, now }) {
        const tree = trees.get(keyOf(request));
        const act = { cycle, module, cell: request.cell, request, value, now, tree, index: history.acts.length };
        tree.act = act;
        history.acts.push(act);
        history.noteCell(act);
    }

    Object.assign(viewer, { beginPart });
})((globalThis.viewer ??= {}));
