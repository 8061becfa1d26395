// The texts beside the picture: what happens in the cycle, a story, the cells, and the lines of the
// trace.
(function (viewer) {
    "use strict";

    const { html, link, nameOf, operationText, placeText } = viewer;
    /** Lists are shown up to these lengths, until all of them is asked for. */
    const MOST_SENTENCES = 60;
    const MOST_CELLS = 100;
    const MOST_LINES = 400;

    /**
     * A sentence whose parts are texts, requests and acts. `actions` has what a click does, in this
     * and in all panels: `showRequest`, `showAct`, `goTo` and `showAll`.
     */
    function sentence(parts, actions) {
        const children = parts.map((part) => {
            if (typeof part === "string") {
                return part;
            }
            const show = part.request ? () => actions.showRequest(part.request) : () => actions.showAct(part.act);
            return link(part.text, show);
        });
        return html("li", {}, ...children, ".");
    }

    /** A list, or a remark where it is empty. */
    function listOr(remark, items, attributes = {}) {
        return items.length > 0 ? html("ul", attributes, ...items) : html("p", { class: "quiet" }, remark);
    }

    /** A button that shows the rest of all lists, where there is a rest. */
    function more(rest, actions) {
        return rest > 0 ? [link(`and ${rest} more`, actions.showAll)] : [];
    }

    function happeningsPanel(element, view, actions) {
        const sentences = viewer.sentencesOf(view.history, view.cycle, view.step);
        const shown = view.hasAll ? sentences : sentences.slice(0, MOST_SENTENCES);
        const items = shown.map((it) => sentence(it, actions));
        const list = listOr("No message is issued, served, split or answered.", items);
        const moves = html("p", {}, viewer.movesText(view.step));
        element.replaceChildren(moves, list, ...more(sentences.length - shown.length, actions));
    }

    /**
     * A table with a head; each row has its attributes and its cells, which are lists of texts and
     * elements.
     */
    function table(name, head, rows) {
        const cells = (kind, list) => list.map((it) => html(kind, {}, ...it));
        const body = rows.map(({ attributes, columns }) => html("tr", attributes, ...cells("td", columns)));
        const title = html("tr", {}, ...cells("th", head.map((it) => [it])));
        return html("table", { class: name }, html("thead", {}, title), html("tbody", {}, ...body));
    }

    function cycleLink(cycle, actions) {
        return link(`${cycle}`, () => actions.goTo(cycle), { "aria-label": `go to cycle ${cycle}` });
    }

    function storyRow(row, view, actions) {
        const cycles = [cycleLink(row.cycle, actions)];
        if (row.until > row.cycle) {
            cycles.push(" to ", cycleLink(row.until, actions));
        }
        const said = row.happenings.join("; ");
        const where = row.place === null ? [] : [html("code", {}, `${placeText(row.place)}: ${row.text}`)];
        const between = said && where.length > 0 ? [html("br")] : [];
        const isNow = view.cycle.number >= row.cycle && view.cycle.number <= row.until;
        const attributes = isNow ? { class: "now", "aria-current": "step" } : {};
        return { attributes, columns: [cycles, [said, ...between, ...where]] };
    }

    function requestPanel(element, request, view, actions) {
        const act = viewer.actOf(request);
        const answer = viewer.answerSentence(view.history, request);
        const served = act
            ? link(`The act that served it, in cycle ${act.cycle}`, () => actions.showAct(act))
            : viewer.noActSentence(view.history);
        const rows = viewer.storyOf(view.history, request).map((it) => storyRow(it, view, actions));
        element.replaceChildren(
            html("h2", {}, `Request ${nameOf(request)}`),
            html("p", {}, `PE ${request.pe}: ${operationText(request)} on cell ${request.cell}. ${answer}`),
            html("p", {}, served),
            table("story", ["Cycle", "Where, and what happens"], rows),
        );
    }

    function orderRow(entry, actions) {
        const name = link(nameOf(entry.request), () => actions.showRequest(entry.request));
        return { attributes: {}, columns: [[name], [html("code", {}, viewer.orderLine(entry))], [`${entry.now ?? "?"}`]] };
    }

    function actPanel(element, act, actions) {
        const replies = viewer.replay(act);
        const tree = new viewer.TreePicture(act, replies, actions.showRequest).element();
        const count = `${replies.length} ${replies.length === 1 ? "request" : "requests"}`;
        const goTo = link(`Go to cycle ${act.cycle}`, () => actions.goTo(act.cycle));
        const rows = replies.map((it) => orderRow(it, actions));
        element.replaceChildren(
            html("h2", {}, `Act of module ${act.module} in cycle ${act.cycle}`),
            html("p", {}, `${count} for cell ${act.cell}, served at once. `, goTo),
            html("div", { class: "scroll" }, tree),
            html("p", { class: "explanation" }, html("code", {}, viewer.explanationOf(act))),
            table("order", ["Request", "In the serial order", "Cell after it"], rows),
        );
    }

    function cellItem({ cell, value, isNew }) {
        const { colour, sign } = viewer.styleOf(cell);
        const mark = html("span", { class: `sign ${colour}`, "aria-hidden": "true" }, sign);
        return html("li", isNew ? { class: "new" } : {}, mark, ` cell ${cell}: ${value ?? "unknown"}`);
    }

    function cellsPanel(element, view, actions) {
        const { cells } = view;
        const items = cells.slice(0, view.hasAll ? cells.length : MOST_CELLS).map(cellItem);
        const list = listOr(viewer.noCellsText(view.history, view.cycle.number), items, { class: "cells" });
        element.replaceChildren(list, ...more(cells.length - items.length, actions));
    }

    /** A list of a place: each of its entries leads to its request, a record to both of its own. */
    function placeItem(place, list, view, actions) {
        const { number } = view.cycle;
        const show = (text, identity) => link(text, () => actions.showRequest(viewer.requestAt(view.history, identity, number)));
        const buttons = list.flatMap((it) => [
            show(viewer.entryText(it), it),
            ...("partner" in it ? [" ", show(`${it.partner}@${it.cell}`, { pe: it.partner, cell: it.cell })] : []),
            ", ",
        ]);
        return html("li", {}, `${placeText(place)}: `, ...buttons.slice(0, -1));
    }

    /** All that waits or is on its way, place by place. */
    function entriesPanel(element, view, actions) {
        const places = [...view.cycle.places];
        const shown = places.slice(0, view.hasAll ? places.length : MOST_SENTENCES);
        const items = shown.map(([place, list]) => placeItem(place, list, view, actions));
        element.replaceChildren(listOr("No message is in any list.", items), ...more(places.length - shown.length, actions));
    }

    function textPanel(element, trace, cycle) {
        const first = trace.line(cycle);
        const lines = trace.text(cycle).trimEnd().split("\n");
        const shown = lines.slice(0, MOST_LINES).map((it, index) => `${`${first + index}`.padStart(6)}  ${it}`);
        const rest = lines.length > shown.length ? [`        and ${lines.length - shown.length} lines more`] : [];
        element.textContent = [...shown, ...rest].join("\n");
    }

    Object.assign(viewer, { happeningsPanel, requestPanel, actPanel, cellsPanel, entriesPanel, textPanel });
})((globalThis.viewer ??= {}));
