// The picture of a combining tree: its leaves in serial order, and to the right where they met.
(function (viewer) {
    "use strict";

    const { svg, styleOf, isPair, leavesOf, heightOf, nameOf, operationText, answerText, CHARACTER } = viewer;
    const ROW = 22;

    class TreePicture {
        constructor(act, replies, onRequest) {
            this.act = act;
            this.onRequest = onRequest;
            this.rows = new Map(leavesOf(act.tree).map((it, index) => [it, index]));
            this.replies = new Map(replies.map((it) => [it.request, it.reply]));
            const height = heightOf(act.tree);
            const texts = [...this.rows.keys()].map((it) => this.leafText(it).length);
            this.leafWidth = Math.max(...texts) * CHARACTER + 14;
            this.level = Math.max(64, Math.min(100, (310 - this.leafWidth) / (height + 1)));
            this.width = this.leafWidth + height * this.level + 20;
            this.height = this.rows.size * ROW + 18;
            this.drawn = [];
        }

        leafText(leaf) {
            return `${nameOf(leaf)} ${operationText(leaf)} → ${answerText(this.replies.get(leaf))}`;
        }

        element() {
            const { colour } = styleOf(this.act.cell);
            this.draw(this.act.tree);
            const { width, height } = this;
            const label = `Combining tree, with its ${this.rows.size} leaves in serial order from the top`;
            const size = { width, height, viewBox: `0 0 ${width} ${height}` };
            const name = { role: "img", "aria-label": label };
            return svg("svg", { class: `tree ${colour}`, ...size, ...name }, ...this.drawn);
        }

        /** Draws a tree, and answers the point from which it goes on to the right. */
        draw(tree) {
            if (!isPair(tree)) {
                return this.drawLeaf(tree);
            }
            const points = [tree.old, tree.later].map((it) => this.draw(it));
            const x = this.leafWidth + (heightOf(tree) - 1) * this.level + 20;
            const y = (points[0].y + points[1].y) / 2;
            points.forEach((it) => this.drawn.push(svg("path", { class: "branch", d: `M${it.x} ${it.y}H${x}V${y}` })));
            this.drawn.push(
                svg("circle", { class: "branch", cx: x, cy: y, r: 3 }, svg("title", {}, tree.kind === null ? "met before this part" : `met in cycle ${tree.cycle}`)),
                svg("text", { class: "operation", x: x + 6, y: y - 4 }, operationText(tree)),
                svg("text", { class: "where", x: x + 6, y: y + 11 }, `s${tree.stage}x${tree.position}`),
            );
            return { x: x + 3, y };
        }

        drawLeaf(leaf) {
            const y = this.rows.get(leaf) * ROW + 16;
            const text = svg("text", { class: "leaf", x: 2, y: y + 4 }, this.leafText(leaf));
            text.addEventListener("click", () => this.onRequest(leaf));
            this.drawn.push(text);
            return { x: this.leafText(leaf).length * CHARACTER + 8, y };
        }
    }

    Object.assign(viewer, { TreePicture });
})((globalThis.viewer ??= {}));
