// What is done with two requests that meet, and with a request in memory.
//
// `old` is the request that stood in the queue, and `later` the new one that came to it.
(function (viewer) {
    "use strict";

    const WORDS = 2 ** 32;

    function sum(a, b) {
        return (a + b) % WORDS;
    }

    /**
     * A cell's value after an operation on a value, and the reply: a value, or null for an
     * acknowledgement.
     */
    function act(operation, value) {
        switch (operation.kind) {
            case "load":
                return { now: value, reply: value };
            case "faa":
                return { now: sum(value, operation.word), reply: value };
            case "swap":
                return { now: operation.word, reply: value };
            default:
                return { now: operation.word, reply: null };
        }
    }

    /** How the old request is answered from the reply to what was sent. */
    function giveToOld(old, later) {
        if (old.kind === "store") {
            return { kind: "ack", word: 0 };
        }
        return isNewFirst(old, later) ? { kind: "fixed", word: later.word } : { kind: "same", word: 0 };
    }

    /** How the new request is answered from it. */
    function giveToNew(old, later) {
        if (later.kind === "store") {
            return { kind: "ack", word: 0 };
        }
        if (old.kind === "load") {
            return { kind: "same", word: 0 };
        }
        return { kind: old.kind === "faa" ? "plus" : "fixed", word: old.word };
    }

    /**
     * The new one comes first in the serial order only where a store meets a load or a fetch-and-
     * add.
     */
    function isNewFirst(old, later) {
        return later.kind === "store" && (old.kind === "load" || old.kind === "faa");
    }

    /** The operation that goes on for both. */
    function sentFor(old, later) {
        if (old.kind === "load") {
            return { kind: later.kind, word: later.word };
        }
        if (old.kind === "faa") {
            const word = later.kind === "swap" ? later.word : sum(old.word, later.word);
            return { kind: later.kind === "load" ? "faa" : later.kind, word };
        }
        return { kind: old.kind, word: act(later, old.word).now };
    }

    /**
     * Two requests for one cell that meet in a queue: what is sent, how both are answered, and who
     * is first.
     */
    function pair(old, later) {
        return {
            sent: sentFor(old, later),
            giveOld: giveToOld(old, later),
            giveNew: giveToNew(old, later),
            isOldFirst: !isNewFirst(old, later),
        };
    }

    /** The value that a way of answering makes of a reply's value. */
    function answerOf(give, value) {
        switch (give.kind) {
            case "same":
                return value;
            case "plus":
                return value === null ? null : sum(value, give.word);
            case "fixed":
                return give.word;
            default:
                return null;
        }
    }

    Object.assign(viewer, { act, pair, answerOf });
})((globalThis.viewer ??= {}));
