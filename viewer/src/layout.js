// Where each unit and list of a machine is drawn: PEs on the left, stages of switches, modules on
// the right.
(function (viewer) {
    "use strict";

    const { PNI, REQ, WAIT, INP, OUT, REP, placeOf } = viewer;
    const CHARACTER = 6.65;
    const ENTRY = 16;
    const LABEL = 11;
    const HEADER = 14;
    const MARGIN = 14;
    const PAD = 7;
    const GAP = 26;
    const BETWEEN = 10;
    const TOP = 26;
    /** The middle of a request's lane into a switch, from the top of a port's row. */
    const REQUEST_LANE = 8;

    function widthOf(length) {
        return Math.ceil(length * CHARACTER) + 24;
    }

    /** Widths and heights that are the same for all units, from what a trace has. */
    function sizesOf(net, shape) {
        const { counts, lengths } = shape;
        const listHeight = (kind) => LABEL + counts[kind] * ENTRY + 2;
        const requestSide = 2 + listHeight(REQ) + 3 + listHeight(WAIT) + 13;
        const replySide = 15 + listHeight(REP) + 4;
        const peSide = 14 + listHeight(PNI) + ENTRY + 6;
        const row = Math.max(requestSide, replySide, peSide, 80) + 12;
        const reply = widthOf(lengths[REP]);
        const request = widthOf(Math.max(lengths[REQ], lengths[WAIT]));
        return {
            row, reply, request, listHeight,
            pe: widthOf(Math.max(lengths[PNI], lengths[REP])) + 8,
            unit: PAD + reply + GAP + request + PAD,
            module: widthOf(Math.max(lengths[INP], lengths[OUT], shape.actLength)) + 8,
            wires: 56 + 3 * net.stages,
        };
    }

    class Layout {
        /** `visible` has the units to be drawn, or is null: then all are, each at its position. */
        constructor(net, shape, visible = null) {
            this.net = net;
            this.visible = visible;
            this.sizes = sizesOf(net, shape);
            this.boxes = new Map();
            this.pes = new Map();
            this.modules = new Map();
            this.switches = new Map();
            this.bottom = TOP + HEADER;
            this.placePes();
            for (let stage = 0; stage < net.stages; stage++) {
                this.placeStage(stage);
            }
            this.placeModules();
            this.width = this.moduleX + this.sizes.module + MARGIN;
            this.height = this.bottom + MARGIN;
        }

        stageX(stage) {
            const { pe, unit, wires } = this.sizes;
            return MARGIN + pe + wires + stage * (unit + wires);
        }

        get moduleX() {
            return this.stageX(this.net.stages - 1) + this.sizes.unit + this.sizes.wires;
        }

        /** The top of a position's row where all units are drawn. */
        rowTop(position) {
            const unit = HEADER + 2 * this.sizes.row + 2 + BETWEEN;
            return TOP + (position >> 1) * unit + HEADER + (position & 1) * this.sizes.row;
        }

        note(box) {
            this.bottom = Math.max(this.bottom, box.y + box.h);
            return box;
        }

        /** The positions whose unit is drawn, each with the top of its row. */
        rows(isVisible) {
            const positions = [...Array(this.net.size).keys()].filter(isVisible);
            if (!this.visible) {
                return positions.map((it) => [it, this.rowTop(it)]);
            }
            return positions.map((it, index) => [it, TOP + HEADER + index * (this.sizes.row + 4)]);
        }

        placePes() {
            const { row, pe: width, listHeight } = this.sizes;
            const peAt = (entry) => this.net.unshuffle(entry);
            for (const [entry, top] of this.rows((it) => !this.visible || this.visible.pes.has(peAt(it)))) {
                const pe = peAt(entry);
                this.pes.set(pe, this.note({ x: MARGIN, y: top, w: width, h: row - 4, top }));
                this.boxes.set(placeOf(PNI, 0, pe), { x: MARGIN + 4, y: top + 14, w: width - 8, h: listHeight(PNI) });
            }
        }

        placeModules() {
            const { row, module: width } = this.sizes;
            for (const [module, top] of this.rows((it) => !this.visible || this.visible.modules.has(it))) {
                const x = this.moduleX;
                const { requestOut, replyIn } = this.lanes(top);
                const inside = { x: x + 4, w: width - 8, h: ENTRY };
                this.modules.set(module, this.note({ x, y: top - HEADER + 2, w: width, h: row - 2, top }));
                this.boxes.set(placeOf(INP, 0, module), { ...inside, y: requestOut - ENTRY / 2 });
                this.boxes.set(placeOf(OUT, 0, module), { ...inside, y: replyIn - ENTRY + 3 });
            }
        }

        /** The switches of a stage from the top, without a gap for what isn't drawn. */
        placeStage(stage) {
            const x = this.stageX(stage);
            const { row, unit } = this.sizes;
            let y = TOP;
            for (let number = 0; number < this.net.size / 2; number++) {
                const isDrawn = (position) => !this.visible || this.visible.hasRow(stage, position);
                const positions = [2 * number, 2 * number + 1].filter(isDrawn);
                if (positions.length === 0) {
                    continue;
                }
                const h = HEADER + positions.length * row + 2;
                this.switches.set(placeOf(0, stage, number), this.note({ x, y, w: unit, h, stage, number }));
                positions.forEach((it, index) => this.placePort(stage, it, x, y + HEADER + index * row));
                y += h + BETWEEN;
            }
        }

        placePort(stage, position, x, top) {
            const { reply, request, listHeight } = this.sizes;
            const requestX = x + PAD + reply + GAP;
            const waitY = top + 2 + listHeight(REQ) + 3;
            const set = (kind, box) => this.boxes.set(placeOf(kind, stage, position), { ...box, top });
            set(REQ, { x: requestX, y: top + 2, w: request, h: listHeight(REQ) });
            set(WAIT, { x: requestX, y: waitY, w: request, h: listHeight(WAIT) });
            set(REP, { x: x + PAD, y: top + 15, w: reply, h: listHeight(REP) });
        }

        /**
         * The left edge of the unit of a queue toward the PEs, and the right edge of that of a
         * queue toward memory.
         */
        unitEdge(box) {
            return box.x - PAD;
        }

        farEdge(box) {
            return box.x + box.w + PAD;
        }

        /** The heights at which messages enter and leave a row. */
        lanes(top) {
            const { listHeight } = this.sizes;
            return {
                requestIn: top + REQUEST_LANE,
                requestOut: top + 2 + listHeight(REQ) / 2,
                replyIn: top + 2 + listHeight(REQ) + 3 + listHeight(WAIT) + 6,
                replyOut: top + 15 + listHeight(REP) / 2,
            };
        }
    }

    Object.assign(viewer, { Layout, ENTRY, LABEL, CHARACTER });
})((globalThis.viewer ??= {}));
