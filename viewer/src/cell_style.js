// How cells are told apart: by a colour, by a shape, and by their number in the text.
(function (viewer) {
    "use strict";

    /** The classes `cell-0` to `cell-7` of style.css have the colours, for light pages and for dark ones. */
    const COLOURS = 8;
    /** Shapes around the point 0 0, 8 wide. */
    const SHAPES = [
        "M-4 0a4 4 0 1 0 8 0a4 4 0 1 0 -8 0",
        "M-3.5 -3.5h7v7h-7z",
        "M0 -4.2L4.2 3.4H-4.2z",
        "M0 -4.6L4.6 0L0 4.6L-4.6 0z",
        "M-1.4 -4h2.8v2.6h2.6v2.8h-2.6v2.6h-2.8v-2.6h-2.6v-2.8h2.6z",
        "M-4.2 -3.4H4.2L0 4.2z",
    ];

    /** The same shapes as signs of a text. */
    const SIGNS = [..."●■▲◆✚▼"];

    /** Eight cells in a row have eight colours, and each eight have another shape, six in all. */
    function styleOf(cell) {
        const shape = Math.floor(cell / COLOURS) % SHAPES.length;
        return { colour: `cell-${cell % COLOURS}`, shape: SHAPES[shape], sign: SIGNS[shape] };
    }

    Object.assign(viewer, { styleOf });
})((globalThis.viewer ??= {}));
