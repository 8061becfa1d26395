// What happens in a cycle, in sentences. A part of a sentence is a text, or names a request or an
// act.
(function (viewer) {
    "use strict";

    const { placeText, stageOf, positionOf, nameOf, requestAt } = viewer;
    const { requestText, replyText, operationText, answerText } = viewer;
    const FAULTS = { f1: "an address that the memory doesn't have", f2: "a step past the program's end" };

    /** A part that names the request that a message belongs to, which was open after the cycle. */
    function requestPart(history, message, cycle) {
        const request = requestAt(history, message, cycle);
        return request ? { text: nameOf(request), request } : `${message.pe}@${message.cell}`;
    }

    function placeInWords(place) {
        return `At stage ${stageOf(place)}, position ${positionOf(place)}`;
    }

    function deliveries(history, cycle) {
        return cycle.got.map((it) => {
            const from = it.value === null ? "" : ` from cell ${it.cell}`;
            const request = requestPart(history, it, cycle.number - 1);
            return [`PE ${it.pe} gets ${answerText(it.value)}${from}: the answer to `, request];
        });
    }

    function splits(history, step, number) {
        return step.splits.map(({ place, record, message, replies }) => [
            `${placeInWords(place)}, the reply ${replyText(message)} is split: ${replyText(replies[0])} for `,
            requestPart(history, record, number - 1),
            ` and ${replyText(replies[1])} for `,
            requestPart(history, replies[1], number - 1),
        ]);
    }

    function acts(cycle) {
        return cycle.acts.map((it) => {
            const was = it.value === null ? "" : ` was ${it.value} and`;
            const text = `Module ${it.module} serves ${requestText(it.request)}`;
            const part = { text, act: { cycle: cycle.number, module: it.module } };
            return [part, `: cell ${it.request.cell}${was} is ${it.now}`];
        });
    }

    function combinations(history, step, number) {
        return step.combinations.map(({ queue, old, later, sent }) => [
            `${placeInWords(queue)}, `,
            requestPart(history, old, number - 1),
            ` (${operationText(old)}) and `,
            requestPart(history, later, number - 1),
            ` (${operationText(later)}) combine: ${requestText({ ...sent, isMarked: false })} goes on`,
        ]);
    }

    function issues(history, step, number) {
        return step.issues.map(({ request }) => [
            `PE ${request.pe} issues `,
            requestPart(history, request, number),
            `: ${operationText(request)} on cell ${request.cell}`,
        ]);
    }

    function faults(cycle) {
        return cycle.faults.map(({ pe, fault }) => [`PE ${pe} stops with fault ${fault}: ${FAULTS[fault]}`]);
    }

    function stays(history, step, number) {
        return step.stays.map(({ message, from }) => [
            requestPart(history, message, number - 1),
            ` stays at the front of ${placeText(from)}: there is no room for it`,
        ]);
    }

    /** The sentences of a cycle of which it isn't known what moved in it. */
    function startSentences(history, cycle) {
        if (cycle.number === history.trace.first && cycle.number > 0) {
            const unknown = ["This part begins with this cycle, so what moved, combined or was issued in it isn't known"];
            const answers = cycle.got.map((it) => [`PE ${it.pe} gets ${answerText(it.value)} for cell ${it.cell}`]);
            return [unknown, ...answers, ...acts(cycle), ...faults(cycle)];
        }
        return [["The text was cut off in this cycle, so lines of it may be missing"]];
    }

    /**
     * The sentences of a cycle, in the order of its phases. Where the text was cut off in it,
     * `step` is null.
     */
    function sentencesOf(history, cycle, step) {
        const { number } = cycle;
        if (!step) {
            return startSentences(history, cycle);
        }
        return [
            ...deliveries(history, cycle),
            ...splits(history, step, number),
            ...acts(cycle),
            ...combinations(history, step, number),
            ...issues(history, step, number),
            ...faults(cycle),
            ...stays(history, step, number),
        ];
    }

    /** How many requests and replies moved, in words. */
    function movesText(step) {
        if (!step) {
            return "What moved isn't known.";
        }
        const { moves } = step;
        const replies = moves.filter((it) => "value" in it.message);
        const requests = moves.length - replies.length;
        // a reply that is split on its way is one that moved
        const sources = new Set(replies.map((it) => it.from)).size;
        const count = (number, one, more) => `${number} ${number === 1 ? one : more}`;
        return `${count(requests, "request", "requests")} and ${count(sources, "reply", "replies")} moved.`;
    }

    Object.assign(viewer, { sentencesOf, movesText });
})((globalThis.viewer ??= {}));
