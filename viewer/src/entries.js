// Entries of lists as they are drawn: a frame in the colour of their cell, its shape, and their
// text.
(function (viewer) {
    "use strict";

    const { svg, styleOf, ENTRY, CHARACTER } = viewer;

    function shortened(text, width) {
        const most = Math.floor((width - 20) / CHARACTER);
        return text.length <= most ? text : `${text.slice(0, most - 1)}…`;
    }

    /** What a click on an entry names. */
    function dataOf(look) {
        return { "data-pe": look.pe, "data-cell": look.cell, "data-what": look.what };
    }

    /**
     * An entry at a point. `look` has its text, title, PE, cell, width and classes, and what it is.
     */
    function entryOf(x, y, look) {
        const { colour, shape } = styleOf(look.cell);
        const top = y + 1;
        return svg(
            "g",
            { class: `entry ${colour} ${look.classes}`, ...dataOf(look) },
            svg("title", {}, look.title),
            svg("rect", { x, y: top, width: look.width, height: ENTRY - 2, rx: 4 }),
            svg("path", { d: shape, transform: `translate(${x + 9} ${top + ENTRY / 2 - 1})` }),
            svg("text", { x: x + 17, y: top + 10.5 }, shortened(look.text, look.width)),
        );
    }

    /** An entry where there is no room for text: its colour alone. */
    function dotOf(x, y, look) {
        const { colour } = styleOf(look.cell);
        const size = { x, y: y + 1, width: look.width, height: ENTRY - 2 };
        return svg("rect", { class: `entry dot ${colour} ${look.classes}`, ...size, ...dataOf(look) });
    }

    Object.assign(viewer, { entryOf, dotOf });
})((globalThis.viewer ??= {}));
