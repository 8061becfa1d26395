// What sort of text a file has, by its first lines.
(function (viewer) {
    "use strict";

    /** `trace`, `steps`, `settings` or `program`. A text that is none of the first three is a program. */
    function sortOfText(text) {
        if (text.startsWith("ultra trace")) {
            return "trace";
        }
        if (/^\d+ (step|reply) \d/.test(text)) {
            return "steps";
        }
        const line = text.split("\n").map((it) => it.replace(/#.*/, "").trim()).find(Boolean) ?? "";
        return /^["\w-]+\s*=|^\[/.test(line) ? "settings" : "program";
    }

    /** The sort of a file, whose bytes may be those of a large trace. */
    function sortOfBytes(bytes) {
        return sortOfText(new TextDecoder("latin1").decode(bytes.subarray(0, 20_000)));
    }

    Object.assign(viewer, { sortOfText, sortOfBytes });
})((globalThis.viewer ??= {}));
