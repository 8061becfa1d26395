// The units that have something in a cycle or moved something in it, for a picture without empty
// ones.
(function (viewer) {
    "use strict";

    const { PNI, INP, OUT, REQ, REP, placeOf, kindOf, stageOf, positionOf, entryAfter, entryBefore } = viewer;

    class VisibleUnits {
        constructor(net) {
            this.net = net;
            this.pes = new Set();
            this.modules = new Set();
            /**
             * The rows of switches: a row is what a switch has at one position of both its sides.
             */
            this.rows = new Set();
        }

        hasRow(stage, position) {
            return this.rows.has(placeOf(0, stage, position));
        }

        addRow(stage, position) {
            this.rows.add(placeOf(0, stage, position));
        }

        addPlace(place) {
            const kind = kindOf(place);
            if (kind === PNI) {
                this.pes.add(positionOf(place));
            } else if (kind === INP || kind === OUT) {
                this.modules.add(positionOf(place));
            } else {
                this.addRow(stageOf(place), positionOf(place));
            }
        }

        /**
         * The unit from which a move leads, the one to which, and the row by which it enters a
         * switch.
         */
        addMove({ from, to }) {
            this.addPlace(from);
            if (to === null) {
                this.pes.add(this.net.unshuffle(positionOf(from)));
                return;
            }
            this.addPlace(to);
            if (kindOf(to) === REQ) {
                this.addRow(stageOf(to), entryAfter(this.net, from));
            } else if (kindOf(to) === REP) {
                this.addRow(stageOf(to), entryBefore(this.net, from));
            }
        }
    }

    function visibleUnits(net, cycle, step) {
        const visible = new VisibleUnits(net);
        [...cycle.places.keys()].forEach((it) => visible.addPlace(it));
        step?.moves.forEach((it) => visible.addMove(it));
        [...cycle.got, ...cycle.faults].forEach((it) => visible.pes.add(it.pe));
        cycle.acts.forEach((it) => visible.modules.add(it.module));
        return visible;
    }

    Object.assign(viewer, { visibleUnits });
})((globalThis.viewer ??= {}));
