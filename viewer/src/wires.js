// The lines along which messages move, as paths of SVG. A way is null where one of its ends isn't
// drawn.
(function (viewer) {
    "use strict";

    const { PNI, REQ, INP, OUT, REP, placeOf, kindOf, stageOf, positionOf, entryAfter, entryBefore } = viewer;

    function curve(x1, y1, x2, y2) {
        const middle = (x1 + x2) / 2;
        return `C${middle} ${y1} ${middle} ${y2} ${x2} ${y2}`;
    }

    /** Where the request at the head of a list leaves its unit. */
    function requestExit(layout, place) {
        if (kindOf(place) === PNI) {
            const pe = layout.pes.get(positionOf(place));
            return pe && { x: pe.x + pe.w, y: layout.lanes(pe.top).requestIn };
        }
        const box = layout.boxes.get(place);
        return box && { x: box.x + box.w, y: layout.lanes(box.top).requestOut };
    }

    /** Where a reply leaves: a module, or a queue toward the PEs. */
    function replyExit(layout, place) {
        if (kindOf(place) === OUT) {
            const module = layout.modules.get(positionOf(place));
            return module && { x: module.x, y: layout.lanes(module.top).replyIn };
        }
        const box = layout.boxes.get(place);
        return box && { x: box.x, y: layout.lanes(box.top).replyOut };
    }

    /**
     * A way that begins with a wire from one unit to the next; its arrow is in the wire's middle.
     */
    function way(start, end, rest) {
        const { x, y } = start;
        const angle = (Math.atan2(2 * (end.y - y), end.x - x) * 180) / Math.PI;
        return {
            path: `M${x} ${y}${curve(x, y, end.x, end.y)}${rest}`,
            start,
            arrow: { x: (x + end.x) / 2, y: (y + end.y) / 2, angle },
            box: { x: Math.min(x, end.x), y: Math.min(y, end.y), w: Math.abs(end.x - x), h: Math.abs(end.y - y) },
        };
    }

    function requestWay(layout, from, to) {
        const start = requestExit(layout, from);
        const box = layout.boxes.get(to);
        if (!start || !box) {
            return null;
        }
        if (kindOf(to) === INP) {
            return way(start, { x: box.x, y: box.y + box.h / 2 }, "");
        }
        const entry = layout.boxes.get(placeOf(REP, stageOf(to), entryAfter(layout.net, from)));
        if (!entry) {
            return null;
        }
        const { requestIn } = layout.lanes(entry.top);
        const end = layout.lanes(box.top).requestOut;
        const inside = entry.x + entry.w;
        const edge = { x: layout.unitEdge(entry), y: requestIn };
        return way(start, edge, `H${inside}${curve(inside, requestIn, box.x, end)}`);
    }

    function replyWay(layout, from, to) {
        const start = replyExit(layout, from);
        if (to === null) {
            const pe = layout.pes.get(layout.net.unshuffle(positionOf(from)));
            return start && pe ? way(start, { x: pe.x + pe.w, y: layout.lanes(pe.top).replyOut }, "") : null;
        }
        const box = layout.boxes.get(to);
        if (!start || !box) {
            return null;
        }
        const queue = layout.boxes.get(placeOf(REQ, stageOf(to), entryBefore(layout.net, from)));
        if (!queue) {
            return null;
        }
        const { replyIn } = layout.lanes(queue.top);
        const end = layout.lanes(box.top).replyOut;
        const edge = { x: layout.farEdge(queue), y: replyIn };
        return way(start, edge, `H${queue.x}${curve(queue.x, replyIn, box.x + box.w, end)}`);
    }

    /**
     * The way of a message that moves: its path, where it starts, where its arrow is, and the box
     * of its wire.
     */
    function wayOf(layout, { message, from, to }) {
        return "value" in message ? replyWay(layout, from, to) : requestWay(layout, from, to);
    }

    /** The paths of the wires from place to place on the whole way of a request and its reply. */
    function routePaths(layout, request) {
        const places = viewer.routeOf(layout.net, request);
        const out = places.findIndex((it) => kindOf(it) === OUT);
        return places
            .map((from, index) => {
                if (index < out - 1) {
                    return requestWay(layout, from, places[index + 1]);
                }
                return index < out ? null : replyWay(layout, from, places[index + 1] ?? null);
            })
            .filter(Boolean)
            .map((it) => it.path);
    }

    /** The places from which requests or replies leave, and to which each of them may go. */
    function linksOf(net) {
        const links = [];
        const ports = (kind, stage, position) => [0, 1].map((port) => placeOf(kind, stage, (position & ~1) | port));
        for (let position = 0; position < net.size; position++) {
            const pni = placeOf(PNI, 0, position);
            links.push({ from: pni, to: ports(REQ, 0, entryAfter(net, pni)), isReply: false });
            links.push({ from: placeOf(OUT, 0, position), to: ports(REP, net.stages - 1, position), isReply: true });
            links.push({ from: placeOf(REP, 0, position), to: [null], isReply: true });
            const last = placeOf(REQ, net.stages - 1, position);
            links.push({ from: last, to: [placeOf(INP, 0, position)], isReply: false });
            for (let stage = 0; stage + 1 < net.stages; stage++) {
                const req = placeOf(REQ, stage, position);
                links.push({ from: req, to: ports(REQ, stage + 1, entryAfter(net, req)), isReply: false });
                const rep = placeOf(REP, stage + 1, position);
                links.push({ from: rep, to: ports(REP, stage, entryBefore(net, rep)), isReply: true });
            }
        }
        return links;
    }

    /** The paths of the wires that can be seen, those of requests and those of replies. */
    function wirePaths(layout, isSeen) {
        const paths = { requests: [], replies: [] };
        for (const { from, to, isReply } of linksOf(layout.net)) {
            for (const end of to) {
                const found = (isReply ? replyWay : requestWay)(layout, from, end);
                if (found && isSeen(found.box)) {
                    paths[isReply ? "replies" : "requests"].push(found.path);
                }
            }
        }
        return paths;
    }

    Object.assign(viewer, { wayOf, wirePaths, routePaths, linksOf });
})((globalThis.viewer ??= {}));
