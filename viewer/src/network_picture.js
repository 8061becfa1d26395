// The picture of the network after a cycle.
(function (viewer) {
    "use strict";

    const { svg, Layout, Contents, wirePaths, routePaths, framesOf } = viewer;
    /** What is this near to the part that can be seen is drawn too. */
    const NEAR = 100;
    /** Below this scale text can't be read, and entries are drawn as colours alone. */
    const TEXT_SCALE = 0.45;

    class NetworkPicture {
        constructor(element, window) {
            this.element = element;
            this.window = window;
            this.scale = 1;
            this.part = { x: 0, y: 0, w: 0, h: 0 };
            this.wires = svg("g", { class: "wires" });
            this.frames = svg("g", { class: "frames" });
            this.route = svg("path", { class: "route" });
            this.content = svg("g", { class: "content" });
            this.moves = svg("g", { class: "moves" });
            element.append(this.wires, this.frames, this.route, this.content, this.moves);
        }

        /**
         * Takes a view, as `App.view` gives it, and draws the units anew where their places change.
         */
        show(view) {
            const isNewLayout = !this.view || view.visible !== null || view.layoutKey !== this.view.layoutKey;
            this.view = view;
            if (isNewLayout) {
                this.layout = new Layout(view.trace.net, view.shape, view.visible);
                this.drawUnits(view.visible ? this.seen() : () => true);
            }
            this.resize();
        }

        /**
         * Sets the size of the picture; where nothing changes the browser has nothing to lay out.
         */
        resize() {
            const { width, height } = this.layout;
            const key = `${width} ${height} ${this.scale}`;
            if (key !== this.sizeKey) {
                this.sizeKey = key;
                this.element.setAttribute("viewBox", `0 0 ${width} ${height}`);
                this.element.setAttribute("width", Math.round(width * this.scale));
                this.element.setAttribute("height", Math.round(height * this.scale));
            }
        }

        /**
         * Notes which part of the picture can be seen. To ask for it at each step would cost a
         * layout of the page.
         */
        noteWindow() {
            const { scrollLeft, scrollTop, clientWidth, clientHeight } = this.window;
            this.part = { x: scrollLeft, y: scrollTop, w: clientWidth, h: clientHeight };
            if (this.view?.visible) {
                this.drawUnits(this.seen());
            }
        }

        /**
         * Draws units and wires. Without empty units they change with each cycle, so only what can
         * be seen is drawn.
         */
        drawUnits(isSeen) {
            const { requests, replies } = wirePaths(this.layout, isSeen);
            this.wires.replaceChildren(
                svg("path", { class: "wire request", d: requests.join("") }),
                svg("path", { class: "wire reply", d: replies.join("") }),
            );
            this.frames.replaceChildren(...framesOf(this.layout, isSeen));
        }

        /** Whether a box is in the part of the picture that can be seen, or near it. */
        seen() {
            const [x, y, w, h] = [this.part.x, this.part.y, this.part.w, this.part.h].map((it) => it / this.scale);
            const meets = (start, size, least, length) => start < least + length + NEAR && start + size > least - NEAR;
            return (box) => meets(box.x, box.w, x, w) && meets(box.y, box.h, y, h);
        }

        drawContent(isSeen = this.seen()) {
            const hasText = this.scale >= TEXT_SCALE;
            const contents = new Contents(this.layout, this.view, isSeen, hasText);
            this.content.replaceChildren(...contents.draw());
            const { request } = this.view;
            this.route.setAttribute("d", request ? routePaths(this.layout, request).join("") : "");
            this.element.classList.toggle("small", !hasText);
        }
    }

    Object.assign(viewer, { NetworkPicture });
})((globalThis.viewer ??= {}));
