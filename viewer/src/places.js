// Numbers for the places of a machine, in the order of a trace's lines.
(function (viewer) {
    "use strict";

    const KINDS = ["pni", "req", "wait", "inp", "out", "rep"];
    const [PNI, REQ, WAIT, INP, OUT, REP] = KINDS.keys();

    function placeOf(kind, stage, position) {
        return (kind << 12) | (stage << 6) | position;
    }

    function kindOf(place) {
        return place >> 12;
    }

    function stageOf(place) {
        return (place >> 6) & 63;
    }

    function positionOf(place) {
        return place & 63;
    }

    function hasStage(kind) {
        return kind === REQ || kind === WAIT || kind === REP;
    }

    /** A place as a trace's line names it: `pni 3`, `req 0 2`. */
    function placeText(place) {
        const kind = kindOf(place);
        const stage = hasStage(kind) ? ` ${stageOf(place)}` : "";
        return `${KINDS[kind]}${stage} ${positionOf(place)}`;
    }

    /** The PE-side position at which a request from a place enters the next stage. */
    function entryAfter(net, place) {
        return net.shuffle(positionOf(place));
    }

    /** The memory-side position at which a reply from a place enters the stage before. */
    function entryBefore(net, place) {
        return kindOf(place) === OUT ? positionOf(place) : net.unshuffle(positionOf(place));
    }

    Object.assign(viewer, { KINDS, PNI, REQ, WAIT, INP, OUT, REP });
    Object.assign(viewer, { placeOf, kindOf, stageOf, positionOf, hasStage, placeText, entryAfter, entryBefore });
})((globalThis.viewer ??= {}));
