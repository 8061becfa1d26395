// A program's text: which line has which instruction, in the form of the canonical listing.
(function (viewer) {
    "use strict";

    const { Fault } = viewer;
    const JUMPS = ["jz", "jnz", "jmp"];

    function fail(line, expected) {
        const fault = new Fault(0, expected);
        fault.line = line;
        throw fault;
    }

    /** The words of a line, without its comment, and its label. */
    function readLine(text) {
        const words = text.replace(/[;#].*/, "").split(/[ \t\r,]+/).filter(Boolean);
        const label = words[0]?.endsWith(":") ? words.shift().slice(0, -1) : null;
        return { label, words };
    }

    /** A word in its canonical form: a number has no leading zeros, and a label the place that it names. */
    function canonical(word, index, words, labels, line) {
        const isTarget = JUMPS.includes(words[0]) && index === words.length - 1;
        if (!isTarget || index === 0) {
            return /^\d+$/.test(word) ? `${BigInt(word)}` : word;
        }
        return labels.has(word) ? `L${labels.get(word)}` : fail(line, "a label that the text has");
    }

    /**
     * The instructions of a text, each with its line and its canonical text. The program judges a
     * text; here only its labels are looked up.
     */
    function readProgram(text) {
        const labels = new Map();
        const found = [];
        text.split("\n").forEach((it, index) => {
            const { label, words } = readLine(it);
            if (label !== null) {
                labels.set(label, found.length);
            }
            if (words.length > 0) {
                found.push({ line: index + 1, words });
            }
        });
        const instructions = found.map(({ line, words }) => ({
            line,
            text: words.map((word, index) => canonical(word, index, words, labels, line)).join(" "),
        }));
        return { text, lines: text.replace(/\n$/, "").split("\n"), instructions };
    }

    Object.assign(viewer, { readProgram });
})((globalThis.viewer ??= {}));
