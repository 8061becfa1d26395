// A picture of a large machine that fits the page: a box for each list, with a bar as long as the
// list.
(function (viewer) {
    "use strict";

    const { PNI, REQ, WAIT, INP, OUT, REP, KINDS, svg, placeOf, kindOf, stageOf, positionOf, placeText } = viewer;
    const { linksOf, routeOf, whereIs, leavesOf } = viewer;
    const ROW = 10;
    const BOX = 24;
    const TOP = 22;
    const LEFT = 24;
    const BETWEEN = 52;
    /** Lists with so many entries, or more, have a full bar. */
    const MOST_LEVEL = 4;
    /** The lists of a unit from the left. */
    const LISTS = [REP, REQ, WAIT];

    function stageX(stage) {
        return LEFT + BOX + BETWEEN + stage * (LISTS.length * BOX + BETWEEN);
    }

    /** The left edge of a place's box. */
    function leftOf(net, place) {
        switch (kindOf(place)) {
            case PNI:
                return LEFT;
            case INP:
                return stageX(net.stages);
            case OUT:
                return stageX(net.stages) + BOX;
            default:
                return stageX(stageOf(place)) + LISTS.indexOf(kindOf(place)) * BOX;
        }
    }

    /** The row of a place: that of the position where the wires of a PE or a module end. */
    function rowOf(net, place) {
        return kindOf(place) === PNI ? net.shuffle(positionOf(place)) : positionOf(place);
    }

    /** The places of a machine, in the order of a trace's lines. */
    function placesOf(net) {
        const numbers = [...Array(net.size).keys()];
        const stages = [...Array(net.stages).keys()];
        return KINDS.flatMap((_, kind) =>
            (LISTS.includes(kind) ? stages : [0]).flatMap((stage) => numbers.map((it) => placeOf(kind, stage, it))),
        );
    }

    class CompactPicture {
        constructor(element) {
            this.element = element;
            this.title = svg("title");
            this.wires = svg("path", { class: "wire" });
            this.frames = svg("path", { class: "frame" });
            this.names = svg("g", { class: "names" });
            this.moves = [svg("path", { class: "sent" }), svg("path", { class: "sent reply" })];
            this.bars = Array.from({ length: MOST_LEVEL }, (_, level) => svg("path", { class: `bar level-${level + 1}` }));
            this.events = svg("path", { class: "event" });
            this.way = svg("path", { class: "way" });
            this.here = svg("path", { class: "here" });
            element.append(this.title, this.wires, this.frames, this.names, ...this.moves, ...this.bars, this.events, this.way, this.here);
            element.addEventListener("pointermove", (event) => this.nameUnder(event));
        }

        /** Shows a view, as `OpenTrace.view` gives it. */
        show(view) {
            if (this.view?.trace !== view.trace) {
                this.view = view;
                this.drawMachine(view.trace.net);
            }
            this.view = view;
            this.drawLists(view.cycle);
            this.drawMoves(view.step);
            this.drawWays(view);
        }

        boxOf(place) {
            const { net } = this.view.trace;
            return { x: leftOf(net, place), y: TOP + rowOf(net, place) * ROW, w: BOX - 2, h: ROW - 2 };
        }

        drawMachine(net) {
            this.places = new Map(placesOf(net).map((it) => /** @type {const} */ ([it, this.boxOf(it)])));
            const boxes = [...this.places.values()];
            const width = stageX(net.stages) + 2 * BOX + LEFT;
            const height = TOP + net.size * ROW + 8;
            this.element.setAttribute("viewBox", `0 0 ${width} ${height}`);
            this.frames.setAttribute("d", boxes.map(({ x, y, w, h }) => `M${x} ${y}h${w}v${h}h${-w}z`).join(""));
            const requests = linksOf(net).filter((it) => !it.isReply);
            this.wires.setAttribute("d", requests.flatMap(({ from, to }) => to.map((it) => this.lineOf(from, it))).join(""));
            this.names.replaceChildren(...this.namesOf(net));
        }

        /** The numbers of PEs and modules, and the names of the columns. */
        namesOf(net) {
            const text = (x, y, anchor, name) => svg("text", { x, y, "text-anchor": anchor }, name);
            const names = [text(LEFT, 9, "start", "PE"), text(stageX(net.stages), 9, "start", "module")];
            names.push(text(leftOf(net, placeOf(INP, 0, 0)), 18, "start", "inp out"));
            for (let stage = 0; stage < net.stages; stage++) {
                names.push(text(stageX(stage), 9, "start", `stage ${stage}`), text(stageX(stage), 18, "start", "rep req wait"));
            }
            for (let number = 0; number < net.size; number++) {
                const pe = this.boxOf(placeOf(PNI, 0, number));
                const module = this.boxOf(placeOf(OUT, 0, number));
                names.push(text(pe.x - 4, pe.y + 7, "end", number), text(module.x + BOX + 2, module.y + 7, "start", number));
            }
            return names;
        }

        /** A line along which a request or a reply goes from one place to the next. */
        lineOf(from, to) {
            const a = this.boxOf(from);
            const b = this.boxOf(to);
            const isReply = kindOf(from) === REP || kindOf(from) === OUT;
            const [start, end] = isReply ? [a.x, b.x + b.w] : [a.x + a.w, b.x];
            return `M${start} ${a.y + a.h / 2}L${end} ${b.y + b.h / 2}`;
        }

        drawLists({ places }) {
            const paths = this.bars.map(() => []);
            for (const [place, list] of places) {
                const { x, y, h } = this.boxOf(place);
                const level = Math.min(MOST_LEVEL, list.length);
                paths[level - 1].push(`M${x} ${y}h${((BOX - 2) * level) / MOST_LEVEL}v${h}H${x}z`);
            }
            paths.forEach((it, level) => this.bars[level].setAttribute("d", it.join("")));
        }

        /** What moved, and a mark where a module acts and where two requests combine. */
        drawMoves(step) {
            const lines = [[], []];
            for (const { from, to, message } of step?.moves ?? []) {
                const end = to ?? placeOf(PNI, 0, message.pe);
                lines["value" in message ? 1 : 0].push(this.lineOf(from, end));
            }
            this.moves.forEach((it, index) => it.setAttribute("d", lines[index].join("")));
            const acts = this.view.cycle.acts.map((it) => placeOf(OUT, 0, it.module));
            const meetings = (step?.combinations ?? []).map((it) => it.queue);
            this.events.setAttribute("d", [...acts, ...meetings].map((it) => this.frameOf(it)).join(""));
        }

        frameOf(place) {
            const { x, y, w, h } = this.boxOf(place);
            return `M${x - 1} ${y - 1}h${w + 2}v${h + 2}h${-w - 2}z`;
        }

        /** The ways of the requests that are chosen, and where each of them is. */
        drawWays({ trace, cycle, request, selectedAct }) {
            const requests = selectedAct ? leavesOf(selectedAct.tree) : [request].filter(Boolean);
            const isThere = (it) => it.issued <= cycle.number && (it.answered === null || cycle.number < it.answered);
            const found = requests.filter(isThere).map((it) => whereIs(trace, it, cycle.number)).filter(Boolean);
            this.way.setAttribute("d", requests.map((it) => this.wayOf(it)).join(""));
            this.here.setAttribute("d", found.map((it) => this.frameOf(it.place)).join(""));
        }

        /** The way of a request to its module and back, through the middles of its places. */
        wayOf(request) {
            const { net } = this.view.trace;
            const places = routeOf(net, request);
            const points = [...places, places[0]].map((it) => this.boxOf(it)).map(({ x, y, w, h }) => `${x + w / 2} ${y + h / 2}`);
            return `M${points.join("L")}`;
        }

        /** The place under the pointer, or null. */
        placeAt(event) {
            const matrix = this.element.getScreenCTM()?.inverse();
            if (!matrix || !this.places) {
                return null;
            }
            const { x, y } = new DOMPoint(event.clientX, event.clientY).matrixTransform(matrix);
            const isAt = (it) => x >= it.x - 1 && x <= it.x + it.w + 1 && y >= it.y - 1 && y <= it.y + it.h + 1;
            return [...this.places].find(([, box]) => isAt(box))?.[0] ?? null;
        }

        /** Names the list under the pointer, and how many entries it has. */
        nameUnder(event) {
            const place = this.placeAt(event);
            const count = this.view?.cycle.places.get(place)?.length ?? 0;
            this.title.textContent = place === null ? "" : `${placeText(place)}: ${count} ${count === 1 ? "entry" : "entries"}`;
        }
    }

    Object.assign(viewer, { CompactPicture });
})((globalThis.viewer ??= {}));
