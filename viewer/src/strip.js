// The strip under the picture: the numbers of all cycles of a run, with the cycle that is shown.
(function (viewer) {
    "use strict";

    const { binsOf, greatestOf, nameOfSeries, html } = viewer;
    const ROW = 18;
    const GAP = 3;

    class Strip {
        /** `onGo` is called with the cycle of a place that is clicked or dragged over. */
        constructor(onGo) {
            this.canvas = html("canvas", { role: "img" });
            this.mark = html("div", { class: "strip-mark" });
            this.legend = html("p", { class: "strip-legend" });
            const area = html("div", { class: "strip-area" }, this.canvas, this.mark);
            this.element = html("div", { class: "strip" }, area, this.legend);
            /** The element of each number's name that has its value in the cycle that is shown. */
            this.numbers = new Map();
            this.overview = new viewer.Overview(0);
            this.first = 0;
            this.length = 1;
            this.connect(area, onGo);
        }

        connect(area, onGo) {
            const go = (event) => {
                const { left, width } = area.getBoundingClientRect();
                const part = Math.max(0, Math.min(0.999999, (event.clientX - left) / width));
                onGo(this.first + Math.floor(part * this.length));
            };
            area.addEventListener("pointerdown", (event) => {
                area.setPointerCapture(event.pointerId);
                go(event);
            });
            area.addEventListener("pointermove", (event) => event.buttons & 1 && go(event));
        }

        /**
         * Draws an overview whose first cycle has this number. With another trace beside it,
         * `length` is the number of cycles of the longer one, so that both have one scale.
         */
        show(name, overview, first, length) {
            this.overview = overview;
            this.first = first;
            this.length = length;
            const { names } = overview;
            this.greatest = new Map(names.map((it) => [it, greatestOf(overview[it])]));
            this.canvas.style.height = `${names.length * (ROW + GAP)}px`;
            this.numbers = new Map(names.map((it) => [it, html("b")]));
            const parts = names.flatMap((it) => [
                html("span", { class: `series ${it}` }, html("i", { "aria-hidden": "true" }), `${nameOfSeries(it)} `, this.numbers.get(it),
                    ` (most ${this.greatest.get(it)})`),
            ]);
            this.legend.replaceChildren(html("span", { class: "strip-name" }, name), ...parts);
            const said = names.map((it) => `${nameOfSeries(it)}, at most ${this.greatest.get(it)}`).join("; ");
            this.canvas.setAttribute("aria-label", `Overview of ${overview.count} cycles of ${name}: ${said}`);
            this.draw();
        }

        /** Draws all rows, in as many bins as there are dots of the screen. */
        draw() {
            const part = devicePixelRatio || 1;
            const width = Math.max(1, Math.round(this.canvas.clientWidth * part));
            const height = Math.max(1, Math.round(this.canvas.clientHeight * part));
            Object.assign(this.canvas, { width, height });
            const context = this.canvas.getContext("2d");
            const used = Math.max(1, Math.round((width * this.overview.count) / this.length));
            this.overview.names.forEach((name, row) => {
                const colour = getComputedStyle(this.canvas).getPropertyValue(`--${name}`);
                this.drawRow(context, name, { top: row * (ROW + GAP) * part, height: ROW * part, width: used, colour });
            });
        }

        /** The greatest number of each bin, and within it the mean. */
        drawRow(context, name, { top, height, width, colour }) {
            const { count, greatest, mean } = binsOf(this.overview[name], width);
            const most = Math.max(1, this.greatest.get(name));
            context.fillStyle = colour;
            for (const [numbers, alpha] of [[greatest, 0.4], [mean, 1]]) {
                context.globalAlpha = alpha;
                for (let bin = 0; bin < count; bin++) {
                    const left = Math.floor((bin * width) / count);
                    const right = Math.max(left + 1, Math.floor(((bin + 1) * width) / count));
                    const size = (numbers[bin] / most) * height;
                    context.fillRect(left, top + height - size, right - left, size);
                }
            }
            context.globalAlpha = 0.35;
            context.fillRect(0, top + height, width, 1);
            context.globalAlpha = 1;
        }

        /** Whether a number is known: how many requests combined in a part's first cycle isn't. */
        isKnownIn(name, index) {
            return name !== "combined" || index > 0 || this.first === 0;
        }

        /** Marks a cycle, and says its numbers. Those that aren't worked out yet are left out. */
        goTo(cycle, isKnown) {
            const index = cycle - this.first;
            this.mark.style.left = `${(100 * index) / this.length}%`;
            this.mark.style.width = `max(3px, ${100 / this.length}%)`;
            for (const [name, element] of this.numbers) {
                element.textContent = isKnown && this.isKnownIn(name, index) ? this.overview[name][index] : "?";
            }
        }
    }

    Object.assign(viewer, { Strip });
})((globalThis.viewer ??= {}));
