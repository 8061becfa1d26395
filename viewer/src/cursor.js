// Reads numbers and fixed texts from bytes. Where something else is found, a Fault says what was
// expected.
(function (viewer) {
    "use strict";

    const ZERO = 48;

    /** A text that isn't a trace: the offset of a byte, and what was expected there. */
    class Fault extends Error {
        constructor(at, expected) {
            super(`expected ${expected}`);
            this.at = at;
            this.expected = expected;
            /**
             * Its line, once that is known.
             * @type {number | undefined}
             */
            this.line = undefined;
            /** Whether the text was cut off there. */
            this.isCut = false;
            /** Whether it is a good text that belongs to another trace. */
            this.isMisfit = false;
            /** The cycle, and the line in it, of a fault that the rules of the machine found. */
            this.cycle = 0;
            this.lineInCycle = 0;
        }
    }

    function quoted(text) {
        return text === "\n" ? "the end of the line" : `'${text.trim()}'`;
    }

    class Cursor {
        constructor(bytes, at = 0) {
            this.bytes = bytes;
            this.at = at;
        }

        /** A fault at the end of the bytes means that the text was cut off there. */
        fail(expected, at = this.at) {
            throw new Fault(at, expected);
        }

        /** How many bytes of the text are next. */
        agreement(text) {
            let count = 0;
            while (count < text.length && this.bytes[this.at + count] === text.charCodeAt(count)) {
                count += 1;
            }
            return count;
        }

        /** Reads the text if it is next. */
        takes(text) {
            const count = this.agreement(text);
            if (count < text.length) {
                if (count > 0 && this.at + count === this.bytes.length) {
                    this.fail(quoted(text), this.bytes.length);
                }
                return false;
            }
            this.at += count;
            return true;
        }

        take(text) {
            const count = this.agreement(text);
            if (count < text.length) {
                this.fail(quoted(text), this.at + count);
            }
            this.at += count;
        }

        /** Reads one of the texts, and answers its index. */
        takeOneOf(texts, expected) {
            for (let index = 0; index < texts.length; index++) {
                if (this.takes(texts[index])) {
                    return index;
                }
            }
            return this.fail(expected);
        }

        number(most, name) {
            const start = this.at;
            let value = 0;
            for (let digit; (digit = this.bytes[this.at] - ZERO) >= 0 && digit <= 9; this.at++) {
                value = value * 10 + digit;
                if (value > most) {
                    this.fail(`${name}, at most ${most}`, start);
                }
            }
            if (this.at === start) {
                this.fail(name);
            }
            if (this.at > start + 1 && this.bytes[start] === ZERO) {
                this.fail(`${name} without leading zeros`, start);
            }
            return value;
        }
    }

    Object.assign(viewer, { Cursor, Fault });
})((globalThis.viewer ??= {}));
