// The settings of a machine, as far as the viewer shows them.
(function (viewer) {
    "use strict";

    const NUMBERS = ["stages", "request_places", "reply_places", "wait_places", "open", "cells", "cycles"];
    const USUAL = { request_places: 4, reply_places: 8, wait_places: 4, open: 2, cells: 16, cycles: 1000 };

    /**
     * The numbers of a text of settings, and the cells that it sets at first. The program judges
     * the text; what isn't written plainly here has its usual value.
     */
    function readSettings(text) {
        const plain = text.replace(/#.*/g, "");
        const settings = { ...USUAL, initial: new Map() };
        for (const name of NUMBERS) {
            const found = new RegExp(`^\\s*${name}\\s*=\\s*(\\d[\\d_]*)\\s*$`, "m").exec(plain);
            if (found) {
                settings[name] = Number(found[1].replaceAll("_", ""));
            }
        }
        const initial = /^\s*initial\s*=\s*\[([\s\S]*?\])?\s*,?\s*\]/m.exec(plain)?.[1] ?? "";
        for (const [, cell, value] of initial.matchAll(/\[\s*(\d+)\s*,\s*(\d+)\s*,?\s*\]/g)) {
            settings.initial.set(Number(cell), Number(value));
        }
        return settings;
    }

    /** The settings in a sentence. */
    function settingsText(settings) {
        const { request_places: requests, reply_places: replies, wait_places: waits, open, cells, cycles } = settings;
        return `Places: ${requests} in a request queue, ${replies} in a reply queue, ${waits} in a wait buffer. `
            + `A PE has at most ${open} open requests. ${cells} cells a module; at most ${cycles} cycles.`;
    }

    Object.assign(viewer, { readSettings, settingsText });
})((globalThis.viewer ??= {}));
