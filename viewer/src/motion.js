// What moved in a cycle: drawn along its wire, and shown moving when the cycle is stepped to.
(function (viewer) {
    "use strict";

    const { svg, styleOf, wayOf, entryText, CHARACTER } = viewer;
    /** With more messages than these only their wires are drawn, or only dots move. */
    const MOST_MOVING = 400;
    const MOST_WITH_TEXT = 80;

    function kindOf({ message }) {
        return "value" in message ? "reply" : "request";
    }

    function wireOf(way, move, isSelected) {
        const { colour } = styleOf(move.message.cell);
        const classes = `moved ${colour} ${kindOf(move)} ${isSelected ? "selected" : ""}`;
        return svg("path", { class: classes, d: way.path });
    }

    function arrowOn({ arrow }, { message }) {
        const { colour } = styleOf(message.cell);
        const transform = `translate(${arrow.x} ${arrow.y}) rotate(${arrow.angle})`;
        return svg("path", { class: `arrow ${colour}`, d: "M6 0L-4 -5L-4 5z", transform });
    }

    /**
     * The text of a message, beside the wire that it left by: above it, or below it where the wire
     * goes up.
     */
    function labelOn({ start, arrow }, move) {
        const isReply = kindOf(move) === "reply";
        const y = start.y + (arrow.y < start.y - 4 ? 12 : -6);
        const place = { x: start.x + (isReply ? -11 : 4), y, "text-anchor": isReply ? "end" : "start" };
        return svg("text", { class: "label", ...place }, entryText(move.message));
    }

    function travellerOf(move, hasText) {
        const { colour, shape } = styleOf(move.message.cell);
        if (!hasText) {
            return svg("g", { class: `traveller ${colour}` }, svg("path", { d: shape }));
        }
        const text = entryText(move.message);
        const width = text.length * CHARACTER + 22;
        return svg(
            "g",
            { class: `traveller ${colour}` },
            svg("rect", { x: -width / 2, y: -8, width, height: 16, rx: 5 }),
            svg("path", { d: shape, transform: `translate(${8 - width / 2} 0)` }),
            svg("text", { x: 16 - width / 2, y: 3.8 }, text),
        );
    }

    class Motion {
        constructor(layer) {
            this.layer = layer;
            this.frame = 0;
        }

        clear() {
            cancelAnimationFrame(this.frame);
            this.layer.replaceChildren();
        }

        /**
         * Draws the moves of a step that can be seen. With a duration in milliseconds they are
         * shown moving.
         */
        show(layout, step, duration, isSelected, isSeen) {
            this.clear();
            const drawn = [];
            for (const move of step?.moves ?? []) {
                const way = wayOf(layout, move);
                if (way && isSeen(way.box)) {
                    drawn.push({ move, way, wire: wireOf(way, move, isSelected(move.message)) });
                }
            }
            this.layer.append(...drawn.map((it) => it.wire));
            if (drawn.length <= MOST_MOVING) {
                this.layer.append(...drawn.map(({ way, move }) => arrowOn(way, move)), ...this.labels(drawn));
                if (duration > 0) {
                    this.travel(drawn, duration);
                }
            }
        }

        /**
         * A label for each message that left a place: its text as it left, also where it was split
         * on the way.
         */
        labels(drawn) {
            const byPlace = new Map(drawn.map((it) => [it.move.from, it]));
            return [...byPlace.values()].map(({ way, move }) => labelOn(way, { ...move, message: move.left }));
        }

        travel(drawn, duration) {
            const travellers = drawn.map(({ move, wire }) => {
                const element = travellerOf(move, drawn.length <= MOST_WITH_TEXT);
                return { element, wire, length: wire.getTotalLength() };
            });
            this.layer.append(...travellers.map((it) => it.element));
            const start = performance.now();
            const draw = (now) => {
                const part = Math.min(1, Math.max(0, (now - start) / duration));
                const eased = part * part * (3 - 2 * part);
                for (const { element, wire, length } of travellers) {
                    const { x, y } = wire.getPointAtLength(eased * length);
                    element.setAttribute("transform", `translate(${x} ${y})`);
                }
                if (part < 1) {
                    this.frame = requestAnimationFrame(draw);
                } else {
                    travellers.forEach((it) => it.element.remove());
                }
            };
            draw(start);
        }
    }

    Object.assign(viewer, { Motion });
})((globalThis.viewer ??= {}));
