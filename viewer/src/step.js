// One cycle, worked out from the states before and after it: what moved, combined, was served and
// was issued.
//
// A trace doesn't name the number of places of a queue, so whether a head moved is read off the
// state after the cycle. All else follows from the rules of the machine, and a state that they
// don't give is a fault.
(function (viewer) {
    "use strict";

    const { PNI, REQ, WAIT, INP, OUT, REP } = viewer;
    const { placeOf, kindOf, stageOf, positionOf, entryAfter, entryBefore, placeLine } = viewer;
    const { act, pair, answerOf, requestText, replyText } = viewer;
    const NONE = [];

    class Step {
        constructor(net, before, after) {
            this.net = net;
            this.before = before.places;
            this.after = after.places;
            this.cycle = after;
            /** The lists as the rules give them so far. */
            this.next = new Map(before.places);
            this.moves = [];
            /** Heads that found no room in this cycle. */
            this.stays = [];
            this.splits = [];
            this.combinations = [];
            this.issues = [];
        }

        list(place) {
            return this.next.get(place) ?? NONE;
        }

        set(place, list) {
            if (list.length === 0) {
                this.next.delete(place);
            } else {
                this.next.set(place, list);
            }
        }

        depart(place) {
            this.set(place, this.list(place).slice(1));
        }

        /** A message moved. `left` is the reply that was split on the way, as it left. */
        move(message, from, to, left = message) {
            this.moves.push({ message, from, to, left });
        }

        countAfter(place) {
            return this.after.get(place)?.length ?? 0;
        }

        run() {
            this.deliver();
            this.moveReplies();
            this.serve();
            this.enterModules();
            this.moveRequests();
            this.issue();
            this.compare();
            return this;
        }

        /** A fault in a line of the cycle, counted from its first. */
        fail(expected, line) {
            const fault = new viewer.Fault(0, expected);
            fault.cycle = this.cycle.number;
            fault.lineInCycle = line;
            throw fault;
        }

        /** The head of each queue of stage 0 toward the PEs is delivered. */
        deliver() {
            const heads = [];
            for (const [place, list] of this.before) {
                if (kindOf(place) === REP && stageOf(place) === 0) {
                    heads.push({ message: list[0], from: place });
                }
            }
            heads.sort((a, b) => a.message.pe - b.message.pe);
            for (const { message, from } of heads) {
                this.depart(from);
                this.move(message, from, null);
            }
            const expected = heads.map(({ message }) => `got ${replyText(message)}`);
            this.agree(expected, this.cycle.got.map((it) => `got ${replyText(it)}`), 1);
        }

        /**
         * Lines of events, from this line of the cycle on, have to be those that follow from the
         * state before.
         */
        agree(expected, found, line) {
            for (let i = 0; i < Math.max(expected.length, found.length); i++) {
                if (expected[i] !== found[i]) {
                    this.fail(expected[i] ? `'${expected[i]}'` : `no line '${found[i]}'`, line + i);
                }
            }
        }

        /**
         * The replies that may go to the next switch, by its stage and number, those at its port 0
         * first.
         */
        waitingReplies() {
            const bySwitch = new Map();
            for (const [place, list] of this.before) {
                const isOut = kindOf(place) === OUT;
                if (!isOut && (kindOf(place) !== REP || stageOf(place) === 0)) {
                    continue;
                }
                const stage = isOut ? this.net.stages - 1 : stageOf(place) - 1;
                const position = entryBefore(this.net, place);
                const key = placeOf(0, stage, position >> 1);
                const heads = bySwitch.get(key) ?? [];
                heads.push({ message: list[0], from: place, position });
                bySwitch.set(key, heads.sort((a, b) => a.position - b.position));
            }
            return [...bySwitch].sort((a, b) => a[0] - b[0]);
        }

        /**
         * Both heads of a switch move or none: its two queues toward the PEs need room for both.
         */
        moveReplies() {
            for (const [key, heads] of this.waitingReplies()) {
                const stage = stageOf(key);
                const queues = [0, 1].map((port) => placeOf(REP, stage, 2 * positionOf(key) + port));
                if (queues.some((it) => this.countAfter(it) > this.list(it).length)) {
                    heads.forEach((it) => this.moveReply(it, stage));
                } else {
                    this.stays.push(...heads);
                }
            }
        }

        moveReply({ message, from, position }, stage) {
            this.depart(from);
            const place = placeOf(WAIT, stage, position);
            const index = this.list(place).findIndex((it) => it.pe === message.pe && it.cell === message.cell);
            let replies = [message];
            if (index >= 0) {
                const record = this.list(place)[index];
                this.set(place, this.list(place).toSpliced(index, 1));
                const { cell, giveOld, partner, giveNew } = record;
                replies = [
                    { pe: record.pe, cell, value: answerOf(giveOld, message.value) },
                    { pe: partner, cell, value: answerOf(giveNew, message.value) },
                ];
                this.splits.push({ place, record, message, replies });
            }
            for (const reply of replies) {
                const to = placeOf(REP, stage, (position & ~1) | this.net.replyPort(stage, reply.pe));
                this.set(to, [...this.list(to), reply]);
                this.move(reply, from, to, message);
            }
        }

        /** A module acts where a request waits in it and its last reply has left. */
        serve() {
            const expected = [];
            for (const [place, [request]] of this.before) {
                const module = positionOf(place);
                const out = placeOf(OUT, 0, module);
                if (kindOf(place) !== INP || this.list(out).length > 0) {
                    continue;
                }
                const found = this.cycle.acts.find((it) => it.module === module);
                const { reply, now } = found ? this.served(request, found) : { reply: null, now: 0 };
                const result = found ? ` = ${viewer.answerText(reply)} now ${now}` : "";
                expected.push(`act ${module} ${requestText(request)}${result}`);
                this.set(place, NONE);
                this.set(out, [{ pe: request.pe, cell: request.cell, value: reply }]);
            }
            this.agree(expected, this.cycle.acts.map(viewer.actText), 1 + this.cycle.got.length);
        }

        /** What the act says, with the value that the cell had by its line, or could have had. */
        served(request, found) {
            if (request.kind === "store") {
                return act(request, 0);
            }
            return act(request, found.value ?? found.now);
        }

        /**
         * The head of each queue of the last stage moves into its module where no request waits.
         */
        enterModules() {
            for (const [place, [request]] of this.before) {
                const inp = placeOf(INP, 0, positionOf(place));
                if (kindOf(place) !== REQ || stageOf(place) !== this.net.stages - 1) {
                    continue;
                }
                if (this.list(inp).length > 0) {
                    this.stays.push({ message: request, from: place });
                    continue;
                }
                this.depart(place);
                const message = { ...request, isMarked: false };
                this.set(inp, [message]);
                this.move(message, place, inp);
            }
        }

        /** The requests that may go to the next queue, by that queue, the last stage first. */
        waitingRequests() {
            const byQueue = new Map();
            for (const [place, [message]] of this.before) {
                const isFirst = kindOf(place) === PNI;
                if (!isFirst && (kindOf(place) !== REQ || stageOf(place) === this.net.stages - 1)) {
                    continue;
                }
                const stage = isFirst ? 0 : stageOf(place) + 1;
                const entry = entryAfter(this.net, place);
                const port = this.net.requestPort(stage, this.net.module(message.cell));
                const queue = placeOf(REQ, stage, (entry & ~1) | port);
                const heads = byQueue.get(queue) ?? [];
                heads.push({ message, from: place, port: entry & 1 });
                byQueue.set(queue, heads);
            }
            return [...byQueue].sort((a, b) => b[0] - a[0]);
        }

        /**
         * All requests for a queue move or none. In an even cycle port 0 comes first, in an odd one
         * port 1.
         */
        moveRequests() {
            const isOdd = (this.cycle.number & 1) === 1;
            for (const [queue, heads] of this.waitingRequests()) {
                const wait = placeOf(WAIT, stageOf(queue), positionOf(queue));
                const records = this.countAfter(wait) - this.list(wait).length;
                if (this.countAfter(queue) === this.list(queue).length && records === 0) {
                    this.stays.push(...heads);
                    continue;
                }
                heads.sort((a, b) => (isOdd ? b.port - a.port : a.port - b.port));
                const most = this.countAfter(wait);
                heads.forEach((it) => this.arrive(it, queue, wait, most));
            }
            this.combinations.sort((a, b) => a.queue - b.queue);
        }

        /**
         * A request combines with the front entry for its cell that isn't marked, while the wait
         * buffer takes records.
         */
        arrive({ message, from }, queue, wait, most) {
            const later = { ...message, isMarked: false };
            this.depart(from);
            this.move(later, from, queue);
            const list = this.list(queue);
            const index = list.findIndex((it) => !it.isMarked && it.cell === message.cell);
            if (index < 0 || this.list(wait).length >= most) {
                this.set(queue, [...list, later]);
                return;
            }
            const old = list[index];
            const { sent, giveOld, giveNew, isOldFirst } = pair(old, later);
            const record = { pe: old.pe, cell: old.cell, giveOld, partner: later.pe, giveNew };
            this.set(queue, list.with(index, { ...old, ...sent, isMarked: true }));
            this.set(wait, [...this.list(wait), record]);
            this.combinations.push({ queue, wait, old, later, isOldFirst, sent: this.list(queue)[index], record });
        }

        /**
         * A request that is new in a PE's list was issued in this cycle; a PE issues at most one.
         */
        issue() {
            for (const [place, list] of this.after) {
                if (kindOf(place) !== PNI) {
                    break;
                }
                if (list.length === this.list(place).length + 1) {
                    const request = list.at(-1);
                    this.set(place, [...this.list(place), request]);
                    this.issues.push({ request, place });
                }
            }
        }

        /** The state that the rules give has to be the one that the trace shows. */
        compare() {
            for (const [place, list] of this.after) {
                if (!sameLists(this.list(place), list)) {
                    this.failAt(place);
                }
            }
            if (this.next.size !== this.after.size) {
                this.failAt([...this.next.keys()].filter((it) => !this.after.has(it)).sort((a, b) => a - b)[0]);
            }
        }

        failAt(place) {
            const list = this.list(place);
            const { got, acts, faults, places } = this.cycle;
            const before = [...places.keys()].filter((it) => it < place).length;
            const line = 1 + got.length + acts.length + faults.length + before;
            this.fail(list.length > 0 ? `'${placeLine(place, list)}'` : `no line '${viewer.placeText(place)}'`, line);
        }
    }

    function sameGives(a, b) {
        return a.kind === b.kind && a.word === b.word;
    }

    function sameEntries(a, b) {
        if (a === b) {
            return true;
        }
        if (a.pe !== b.pe || a.cell !== b.cell || a.value !== b.value) {
            return false;
        }
        if (a.giveOld) {
            return a.partner === b.partner && sameGives(a.giveOld, b.giveOld) && sameGives(a.giveNew, b.giveNew);
        }
        return a.kind === b.kind && a.word === b.word && a.isMarked === b.isMarked;
    }

    function sameLists(a, b) {
        return a.length === b.length && a.every((it, index) => sameEntries(it, b[index]));
    }

    /**
     * What happens in a cycle. Throws a Fault, with the number of the cycle, where the rules don't
     * allow it.
     */
    function stepOf(net, before, after) {
        return new Step(net, before, after).run();
    }

    /**
     * What happens in a cycle of a trace. The last cycle of a text that was cut off may lack lines:
     * then the answer is null, and so it is in the first cycle of a part. Else a fault has its line.
     */
    function stepInTrace(trace, before, cycle) {
        if (before === null) {
            return null;
        }
        try {
            return stepOf(trace.net, before, cycle);
        } catch (fault) {
            if (!(fault instanceof viewer.Fault)) {
                throw fault;
            }
            if (trace.cut?.isInCycle && cycle.number === trace.last) {
                return null;
            }
            fault.line = trace.line(fault.cycle) + fault.lineInCycle;
            throw fault;
        }
    }

    Object.assign(viewer, { stepOf, stepInTrace });
})((globalThis.viewer ??= {}));
