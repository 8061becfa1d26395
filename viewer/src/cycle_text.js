// The lines of one cycle: how they are read and checked, and how they are written.
(function (viewer) {
    "use strict";

    const { KINDS, PNI, REQ, WAIT, INP, OUT, REP, MOST_PE, MOST_STAGES, MOST_WORD } = viewer;
    const { placeOf, stageOf, positionOf, hasStage, placeText, entryText } = viewer;
    const EVENT_STARTS = ["got ", "act ", "fault "];
    const ORDER = "lines in the order got, act, fault, pni, req, wait, inp, out, rep, each by its numbers";
    const LINE_STARTS = [...EVENT_STARTS, ...KINDS.map((it) => `${it} `)];
    /** The last is only found where a text ends in the line of the next cycle. */
    const STARTS = [...LINE_STARTS, "cycle "];
    const READERS = [];
    READERS[PNI] = READERS[INP] = viewer.readRequest;
    READERS[REQ] = viewer.readQueueEntry;
    READERS[WAIT] = viewer.readRecord;
    READERS[OUT] = READERS[REP] = viewer.readReply;

    /**
     * What a trace says of a cycle. `places` has a list for each place that isn't empty.
     * @param {number} number
     * @returns {CycleText}
     */
    function emptyCycle(number) {
        return { number, got: [], acts: [], faults: [], places: new Map() };
    }

    function readGot(cursor, cycle) {
        const reply = viewer.readReply(cursor);
        cursor.take("\n");
        cycle.got.push(reply);
        return reply.pe;
    }

    function readAct(cursor, cycle, net) {
        const start = cursor.at;
        const module = cursor.number(MOST_PE, "the number of a module");
        cursor.take(" ");
        const request = viewer.readRequest(cursor);
        cursor.take(" = ");
        const value = viewer.readAnswer(cursor);
        cursor.take(" now ");
        const now = cursor.number(MOST_WORD, "a word");
        cursor.take("\n");
        if (net.module(request.cell) !== module) {
            cursor.fail(`a request for a cell of module ${module}`, start);
        }
        cycle.acts.push({ module, request, value, now });
        return module;
    }

    function readFault(cursor, cycle) {
        const pe = cursor.number(MOST_PE, "the number of a PE");
        cursor.take(" ");
        const fault = ["f1", "f2"][cursor.takeOneOf(["f1", "f2"], "'f1' or 'f2'")];
        cursor.take("\n");
        cycle.faults.push({ pe, fault });
        return pe;
    }

    /** Whether the way of a message leads over the place. */
    function isOnRoute(net, kind, place, entry) {
        const position = positionOf(place);
        const module = net.module(entry.cell);
        switch (kind) {
            case PNI:
                return entry.pe === position;
            case REQ:
                return net.line(stageOf(place) + 1, entry.pe, module) === position;
            case WAIT:
                return [entry.pe, entry.partner].every((it) => net.line(stageOf(place) + 1, it, module) === position);
            case REP:
                return net.entry(stageOf(place), entry.pe, module) === position;
            default:
                return module === position;
        }
    }

    function readPlace(cursor, cycle, net, kind) {
        const stage = hasStage(kind) ? cursor.number(MOST_STAGES - 1, "the number of a stage") : 0;
        if (hasStage(kind)) {
            cursor.take(" ");
        }
        const place = placeOf(kind, stage, cursor.number(MOST_PE, "a position"));
        cursor.take(": ");
        const start = cursor.at;
        const list = [READERS[kind](cursor)];
        while (kind !== INP && kind !== OUT && cursor.takes(", ")) {
            list.push(READERS[kind](cursor));
        }
        cursor.take("\n");
        if (stage >= net.stages || positionOf(place) >= net.size) {
            cursor.fail(`a place of a machine with ${net.stages} stages and ${net.size} PEs`, start);
        }
        if (!list.every((it) => isOnRoute(net, kind, place, it))) {
            cursor.fail(`messages whose way leads over '${placeText(place)}'`, start);
        }
        cycle.places.set(place, list);
        return place & 4095;
    }

    /** Reads a line. Its rank grows from line to line. */
    function readLine(cursor, cycle, net) {
        const index = cursor.takeOneOf(STARTS, `a line of cycle ${cycle.number}, 'cycle ${cycle.number + 1}' or 'end'`);
        const readers = [readGot, readAct, readFault];
        const rank = index < 3 ? readers[index](cursor, cycle, net) : readPlace(cursor, cycle, net, index - 3);
        return (index << 12) | rank;
    }

    /**
     * Reads the lines of a cycle up to the offset `end` into `cycle`. It keeps each whole line
     * before one with a fault.
     */
    function readCycle(cursor, end, net, cycle) {
        const first = cursor.at;
        cursor.take("cycle ");
        const number = cursor.number(999999, "the number of a cycle");
        cursor.take("\n");
        if (number !== cycle.number) {
            cursor.fail(`'cycle ${cycle.number}'`, first);
        }
        let last = -1;
        while (cursor.at < end) {
            const start = cursor.at;
            const rank = readLine(cursor, cycle, net);
            if (rank <= last) {
                cursor.fail(ORDER, start);
            }
            last = rank;
        }
    }

    function actText(act) {
        const { module, request, value, now } = act;
        return `act ${module} ${viewer.requestText(request)} = ${viewer.answerText(value)} now ${now}`;
    }

    /**
     * @param {Place} place
     * @param {Entry[]} list
     */
    function placeLine(place, list) {
        return `${placeText(place)}: ${list.map(entryText).join(", ")}`;
    }

    /** @param {CycleText} cycle */
    function cycleText(cycle) {
        const lines = [
            `cycle ${cycle.number}`,
            ...cycle.got.map((it) => `got ${viewer.replyText(it)}`),
            ...cycle.acts.map(actText),
            ...cycle.faults.map((it) => `fault ${it.pe} ${it.fault}`),
            ...[...cycle.places].map(([place, list]) => placeLine(place, list)),
        ];
        return lines.map((it) => `${it}\n`).join("");
    }

    Object.assign(viewer, { emptyCycle, readCycle, cycleText, actText, placeLine });
})((globalThis.viewer ??= {}));
