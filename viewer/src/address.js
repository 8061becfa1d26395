// The part of the page's address behind `#`. It names the trace, the cycle and what is shown, so a
// link leads there.
(function (viewer) {
    "use strict";

    /** The forms of the picture that an address may name. */
    const FORMS = ["detail", "folded", "compact"];
    /** What two traces may be at the same number of, beside cycles. */
    const SERIES = ["issued", "combined", "acts", "answered"];

    /** `#trace=NAME&beside=NAME&together=SERIES&cycle=C&request=P.N&act=C.M&view=FORM`; what isn't there is undefined. */
    function readAddress(hash) {
        const found = new URLSearchParams(hash.replace(/^#/, ""));
        const text = (name) => found.get(name) ?? "";
        const numbers = (name) => /^(\d+)\.(\d+)$/.exec(text(name))?.slice(1).map(Number);
        return {
            trace: found.get("trace") ?? undefined,
            beside: found.get("beside") ?? undefined,
            together: SERIES.includes(text("together")) ? text("together") : undefined,
            cycle: /^\d+$/.test(text("cycle")) ? Number(text("cycle")) : undefined,
            request: numbers("request"),
            act: numbers("act"),
            form: FORMS.includes(text("view")) ? text("view") : undefined,
        };
    }

    function writeAddress({ trace, beside, together, cycle, request, act, form }) {
        const parts = new URLSearchParams();
        if (trace) {
            parts.set("trace", trace);
        }
        if (beside) {
            parts.set("beside", beside);
        }
        if (together) {
            parts.set("together", together);
        }
        parts.set("cycle", cycle);
        if (request) {
            parts.set("request", viewer.nameOf(request));
        }
        if (act) {
            parts.set("act", `${act.cycle}.${act.module}`);
        }
        if (form) {
            parts.set("view", form);
        }
        return `#${parts}`;
    }

    Object.assign(viewer, { readAddress, writeAddress });
})((globalThis.viewer ??= {}));
