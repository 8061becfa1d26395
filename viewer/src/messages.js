// The text of requests, replies and records: how it is read, and how it is written.
(function (viewer) {
    "use strict";

    const MOST_WORD = 2 ** 32 - 1;
    const MOST_PE = 63;
    const MOST_CELL = 64 * 4096 - 1;
    const OPERATIONS = ["load", "store", "faa", "swap"];
    const OPERATION_STARTS = ["load", "store ", "faa ", "swap "];
    const GIVES = ["same", "ack", "plus", "fixed"];
    const GIVE_STARTS = ["same", "ack", "plus ", "fixed "];

    function readIdentity(cursor) {
        const pe = cursor.number(MOST_PE, "the number of a PE");
        cursor.take("@");
        return { pe, cell: cursor.number(MOST_CELL, "the number of a cell") };
    }

    /** `P@A OP` */
    function readRequest(cursor) {
        const { pe, cell } = readIdentity(cursor);
        cursor.take(" ");
        const index = cursor.takeOneOf(OPERATION_STARTS, "'load', 'store', 'faa' or 'swap'");
        const word = index === 0 ? 0 : cursor.number(MOST_WORD, "a word");
        return { pe, cell, kind: OPERATIONS[index], word, isMarked: false };
    }

    /** `P@A OP` or `P@A OP *` */
    function readQueueEntry(cursor) {
        const request = readRequest(cursor);
        request.isMarked = cursor.takes(" *");
        return request;
    }

    function readAnswer(cursor) {
        return cursor.takes("ack") ? null : cursor.number(MOST_WORD, "'ack' or a word");
    }

    /** `P@A = V` or `P@A = ack`; the value of an acknowledgement is null. */
    function readReply(cursor) {
        const { pe, cell } = readIdentity(cursor);
        cursor.take(" = ");
        return { pe, cell, value: readAnswer(cursor) };
    }

    function readGive(cursor) {
        const index = cursor.takeOneOf(GIVE_STARTS, "'same', 'plus', 'fixed' or 'ack'");
        return { kind: GIVES[index], word: index < 2 ? 0 : cursor.number(MOST_WORD, "a word") };
    }

    /** `P@A GIVE PARTNER GIVE` */
    function readRecord(cursor) {
        const { pe, cell } = readIdentity(cursor);
        cursor.take(" ");
        const giveOld = readGive(cursor);
        cursor.take(" ");
        const partner = cursor.number(MOST_PE, "the number of a PE");
        cursor.take(" ");
        return { pe, cell, giveOld, partner, giveNew: readGive(cursor) };
    }

    /** What a request asks for; where that isn't known its kind is null. */
    function operationText(request) {
        if (request.kind === null) {
            return "?";
        }
        return request.kind === "load" ? "load" : `${request.kind} ${request.word}`;
    }

    function requestText(request) {
        const mark = request.isMarked ? " *" : "";
        return `${request.pe}@${request.cell} ${operationText(request)}${mark}`;
    }

    function answerText(value) {
        return value === null ? "ack" : `${value ?? "?"}`;
    }

    /** @param {ReplyMessage} reply */
    function replyText(reply) {
        return `${reply.pe}@${reply.cell} = ${answerText(reply.value)}`;
    }

    /** @param {Give} give */
    function giveText(give) {
        return give.kind === "plus" || give.kind === "fixed" ? `${give.kind} ${give.word}` : give.kind;
    }

    /** @param {WaitRecord} record */
    function recordText(record) {
        const { pe, cell, giveOld, partner, giveNew } = record;
        return `${pe}@${cell} ${giveText(giveOld)} ${partner} ${giveText(giveNew)}`;
    }

    /**
     * The text of an entry, whichever of the three it is.
     * @param {Entry} entry
     */
    function entryText(entry) {
        if ("giveOld" in entry) {
            return recordText(entry);
        }
        return "value" in entry ? replyText(entry) : requestText(entry);
    }

    Object.assign(viewer, { MOST_WORD, MOST_PE, MOST_CELL });
    Object.assign(viewer, { readRequest, readQueueEntry, readReply, readRecord, readAnswer });
    Object.assign(viewer, { operationText, requestText, replyText, answerText, entryText });
})((globalThis.viewer ??= {}));
