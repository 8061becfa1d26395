// Where each cycle begins in the bytes of a trace: one pass over the bytes, before a line is read.
(function (viewer) {
    "use strict";

    const [NEWLINE, BLANK, ZERO] = ["\n", " ", "0"].map((it) => it.charCodeAt(0));
    const [A_C, A_E, A_R, A_W, A_Y] = [..."cerwy"].map((it) => it.charCodeAt(0));

    /** A list of numbers that grows, in little memory. */
    class Numbers {
        constructor() {
            this.list = new Uint32Array(1024);
            this.length = 0;
        }

        push(number) {
            if (this.length === this.list.length) {
                const longer = new Uint32Array(2 * this.length);
                longer.set(this.list);
                this.list = longer;
            }
            this.list[this.length++] = number;
        }
    }

    /** The greatest stage and the greatest PE, module or position that lines begin with. */
    class GreatestNumbers {
        constructor() {
            this.stage = 0;
            this.position = 0;
        }

        /** The number at this offset; what isn't one counts as 0. */
        number(bytes, at) {
            let value = 0;
            for (let digit; (digit = bytes[at] - ZERO) >= 0 && digit <= 9 && value < 100; at++) {
                value = 10 * value + digit;
            }
            return value;
        }

        /** Notes the numbers of the line at this offset. */
        note(bytes, at) {
            const hasStage = bytes[at] === A_R || bytes[at] === A_W;
            while (bytes[at] > BLANK) {
                at += 1;
            }
            if (hasStage) {
                this.stage = Math.max(this.stage, this.number(bytes, at + 1));
                at += 2;
            }
            this.position = Math.max(this.position, this.number(bytes, at + 1));
        }
    }

    /**
     * From an offset on, whose line is the one after this: offsets and line numbers of the cycles, and of the end, which is null where no line begins
     * with `e`.
     */
    function traceIndex(bytes, from, firstLine) {
        const index = { offsets: new Numbers(), lines: new Numbers(), greatest: new GreatestNumbers(), end: null };
        let line = firstLine;
        for (let at = from; at > 0 && at < bytes.length; ) {
            line += 1;
            if (bytes[at] === A_E) {
                index.end = { offset: at, line };
                break;
            }
            if (bytes[at] === A_C && bytes[at + 1] === A_Y) {
                index.offsets.push(at);
                index.lines.push(line);
            } else {
                index.greatest.note(bytes, at);
            }
            while (at < bytes.length && bytes[at] !== NEWLINE) {
                at += 1;
            }
            at += 1;
        }
        return index;
    }

    Object.assign(viewer, { traceIndex });
})((globalThis.viewer ??= {}));
