// The program beside the picture: its listing with the PEs at their lines, and a PE's registers.
(function (viewer) {
    "use strict";

    const { html } = viewer;
    const MOST_MARKERS = 12;

    /** The PEs that are at a place, as the marker of the line says them. */
    function markerText(pes) {
        const numbers = pes.slice(0, MOST_MARKERS).join(" ") + (pes.length > MOST_MARKERS ? ` and ${pes.length - MOST_MARKERS} more` : "");
        return pes.length > 0 ? `PE ${numbers}` : "";
    }

    /** The PEs by the place where they are. */
    function pesByPlace(execution, cycle) {
        const found = new Map();
        for (let pe = 0; execution.steps && pe < execution.trace.net.size; pe++) {
            const place = execution.placeOf(pe, cycle);
            found.set(place, [...(found.get(place) ?? []), pe]);
        }
        return found;
    }

    /** The rows of a listing, which are made once; from cycle to cycle only their markers change. */
    function rowsOf(element, listing) {
        if (element.listing !== listing) {
            const rows = listing.map(({ place, text }) => {
                const marker = html("span", {});
                const cells = [[`${place}`], [marker], [html("code", {}, text)]].map((it) => html("td", {}, ...it));
                return { place, marker, said: "", element: html("tr", {}, ...cells) };
            });
            const columns = html("colgroup", {}, ...["place", "at", "text"].map((it) => html("col", { class: it })));
            element.replaceChildren(html("table", { class: "listing" }, columns, html("tbody", {}, ...rows.map((it) => it.element))));
            Object.assign(element, { listing, listingRows: rows });
        }
        return element.listingRows;
    }

    /** The listing, each instruction with its place and the PEs that are there. */
    function listingPanel(element, execution, cycle, chosen) {
        const byPlace = pesByPlace(execution, cycle);
        for (const row of rowsOf(element, execution.listing)) {
            const pes = byPlace.get(row.place) ?? [];
            const classes = pes.includes(chosen) ? "marker chosen" : "marker";
            const text = markerText(pes);
            const said = `${classes} ${text}`;
            if (said !== row.said) {
                row.said = said;
                row.marker.textContent = text;
                row.marker.className = text ? classes : "";
                row.element.className = pes.includes(chosen) ? "now" : "";
            }
        }
    }

    function stateText({ state, place, cells }) {
        const at = place === null ? "" : `, at instruction ${place}`;
        const waits = cells.length > 0 ? `: it waits for cell ${[...new Set(cells)].join(", ")}` : "";
        return `${state}${at}${state === "stalled" ? waits : ""}`;
    }

    /** The state of a PE, and its registers, of which those that are set in this cycle are marked. */
    function registersPanel(element, execution, cycle, pe) {
        const state = html("p", { id: "pe-state" }, `PE ${pe}: ${stateText(execution.peAt(pe, cycle))}.`);
        const items = execution.registersAt(pe, cycle).map(({ register, value, isNew }) =>
            html("li", isNew ? { class: "new" } : {}, `r${register} = ${value === null ? "unknown" : value}${isNew ? " (new)" : ""}`),
        );
        element.replaceChildren(state, html("ul", { class: "cells" }, ...items));
    }

    Object.assign(viewer, { listingPanel, registersPanel });
})((globalThis.viewer ??= {}));
