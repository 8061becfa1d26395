// The way of one request, from its issue to its answer.
(function (viewer) {
    "use strict";

    const { PNI, REQ, WAIT, INP, OUT, REP, placeOf, entryText } = viewer;

    /** The places on the way of a request and its reply, those of the request first. */
    function routeOf(net, { pe, cell }) {
        const module = net.module(cell);
        const stages = [...Array(net.stages).keys()];
        return [
            placeOf(PNI, 0, pe),
            ...stages.map((it) => placeOf(REQ, it, net.line(it + 1, pe, module))),
            placeOf(INP, 0, module),
            placeOf(OUT, 0, module),
            ...stages.reverse().map((it) => placeOf(REP, it, net.entry(it, pe, module))),
        ];
    }

    /** Where a request or its reply is after a cycle: a place and the entry there, or null. */
    function whereIs(trace, request, number) {
        const cycle = trace.cycle(number);
        const isOwn = (it) => it.pe === request.pe && it.cell === request.cell;
        const route = routeOf(trace.net, request);
        for (const place of route) {
            const entry = cycle.places.get(place)?.find(isOwn);
            if (entry) {
                return { place, entry };
            }
        }
        const isPartner = (it) => it.partner === request.pe && it.cell === request.cell;
        for (const place of route.slice(1, 1 + trace.net.stages)) {
            const wait = place + placeOf(WAIT - REQ, 0, 0);
            const entry = cycle.places.get(wait)?.find(isPartner);
            if (entry) {
                return { place: wait, entry };
            }
        }
        return null;
    }

    /**
     * The request under whose PE and cell a request travels after a cycle: itself, or one that it
     * met.
     */
    function carrierAt(request, cycle) {
        return viewer.bearerOf(viewer.treeAt(request, cycle));
    }

    /** What happens to a request in a cycle, in words, or nothing. */
    function happeningsOf(history, request, number) {
        const found = [];
        if (request.isBefore && number === history.trace.first) {
            found.push("it was issued before this part, or in its first cycle");
        }
        if (number === request.issued) {
            found.push(`PE ${request.pe} issues it`);
        }
        for (let tree = request; tree.parent; tree = tree.parent) {
            const pair = tree.parent;
            if (pair.cycle === number) {
                found.push(meeting(request, tree, pair));
            }
        }
        const act = viewer.actOf(request);
        if (act?.cycle === number) {
            found.push(`module ${act.module} serves it`);
        }
        if (number === request.answered) {
            found.push(`PE ${request.pe} gets ${viewer.answerText(request.value)}`);
        }
        return found;
    }

    function meeting(request, tree, pair) {
        const isOld = tree === pair.old;
        const other = viewer.nameOf(viewer.bearerOf(isOld ? pair.later : pair.old));
        const at = `at stage ${pair.stage}, position ${pair.position}`;
        if (viewer.bearerOf(tree) !== request) {
            return `inside ${viewer.nameOf(viewer.bearerOf(tree))}, it meets ${other} ${at}`;
        }
        return `it meets ${other} ${at}, ${isOld ? "and" : "which"} goes on for both`;
    }

    /** The pair at a stage in which a request went on for another, or null. */
    function carriedAt(request, stage) {
        for (let tree = request; tree.parent && tree.parent.old === tree; tree = tree.parent) {
            if (tree.parent.stage === stage) {
                return tree.parent;
            }
        }
        return null;
    }

    /** That a reply is split, where a request's reply comes to a stage at which it went on for another. */
    function splitOf(request, last, { place }) {
        const pair = isKind(place, REP) && last.place !== place ? carriedAt(request, viewer.stageOf(place)) : null;
        const other = pair && viewer.nameOf(viewer.bearerOf(pair.later));
        return pair ? [`its reply is split at stage ${pair.stage}, position ${pair.position}, for ${other}`] : [];
    }

    function isSame(row, { place, entry }) {
        return row.place === place && row.text === entryText(entry);
    }

    function isKind(place, kind) {
        return place !== null && viewer.kindOf(place) === kind;
    }

    /** The last cycle of a story: that of the answer, or the last that is worked out. */
    function lastCycleOf(history, request) {
        return request.answered ?? history.cycles - 1;
    }

    /**
     * The story of a request: where it is in each cycle, and what happens. Cycles of waiting are
     * one row.
     */
    function storyOf(history, request) {
        const { trace } = history;
        const rows = [];
        for (let number = Math.max(request.issued, trace.first); number <= lastCycleOf(history, request); number++) {
            const where = number === request.answered ? null : whereIs(trace, request, number);
            const happenings = happeningsOf(history, request, number);
            const last = rows.at(-1);
            if (last && where && isKind(last.place, WAIT) && isKind(where.place, REP)) {
                happenings.push("the reply is split");
            }
            if (last && where) {
                happenings.push(...splitOf(request, last, where));
            }
            if (last && where && happenings.length === 0 && isSame(last, where)) {
                last.until = number;
                continue;
            }
            const text = where ? entryText(where.entry) : "";
            rows.push({ cycle: number, until: number, place: where?.place ?? null, text, happenings });
        }
        return rows;
    }

    /** What a request is answered, in a sentence, or why no answer is known. */
    function answerSentence(history, { answered, value }) {
        if (answered !== null) {
            return `Its answer is ${viewer.answerText(value)}.`;
        }
        return history.isDone ? `It isn't answered in this ${history.trace.part ? "part" : "trace"}.` : "Its answer isn't worked out yet.";
    }

    /** Why no act is known that served a request. */
    function noActSentence(history) {
        return history.isDone ? `It isn't served in this ${history.trace.part ? "part" : "trace"}.` : "Its act isn't worked out yet.";
    }

    /**
     * The request of a PE for a cell that is open after a cycle, or null. A PE has at most one.
     * Which one it is isn't known for a cycle that isn't worked out yet.
     */
    function requestAt(history, { pe, cell }, cycle) {
        if (cycle >= history.cycles) {
            return null;
        }
        const list = history.requestsOfPe[pe] ?? [];
        let low = 0;
        let high = list.length;
        while (low < high) {
            const middle = (low + high) >> 1;
            if (list[middle].issued <= cycle) {
                low = middle + 1;
            } else {
                high = middle;
            }
        }
        for (let index = low - 1; index >= 0; index--) {
            const it = list[index];
            if (it.cell === cell) {
                return it.answered === null || it.answered > cycle ? it : null;
            }
        }
        return null;
    }

    Object.assign(viewer, { routeOf, whereIs, carrierAt, storyOf, answerSentence, noActSentence, requestAt });
})((globalThis.viewer ??= {}));
