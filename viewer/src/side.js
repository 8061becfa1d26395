// One of the traces that are shown beside each other, with its picture and its strip.
(function (viewer) {
    "use strict";

    const { OpenTrace, Pane, Strip, byId } = viewer;
    const OVERVIEW_MILLISECONDS = 700;
    const SLICE_MILLISECONDS = 12;

    class Side {
        /** Its elements have this at the end of their ids. `onGo` is called with a cycle of its strip. */
        constructor(suffix, onGo) {
            this.element = byId(`pane${suffix}`);
            this.title = byId(`title${suffix}`);
            this.pane = new Pane(byId(`scroller${suffix}`), byId(`network${suffix}`), byId(`compact-network${suffix}`));
            this.strip = new Strip(onGo);
            byId("strips").append(this.strip.element);
            /** @type {InstanceType<typeof OpenTrace> | null} */
            this.open = null;
            this.close();
        }

        /** Opens a text. Throws a Fault with its line where it isn't a trace. */
        openText(name, bytes) {
            this.close();
            this.open = new OpenTrace(name, bytes);
            this.element.hidden = false;
            this.strip.element.hidden = false;
            this.pane.window.scrollTo(0, 0);
        }

        close() {
            this.open = null;
            this.isNext = false;
            this.overviewTime = -Infinity;
            this.pane.clear();
            this.element.hidden = true;
            this.strip.element.hidden = true;
        }

        /** Goes to a cycle, and notes whether that is the one after the cycle that was shown. */
        goTo(cycle) {
            const before = this.open.cycle;
            this.open.goTo(cycle);
            this.isNext = this.open.cycle === before + 1;
        }

        /** Works out a slice of the history. Answers whether more of what is shown is now known. */
        workSlice() {
            const unknown = this.open.unknownParts();
            this.open.workFor(SLICE_MILLISECONDS);
            if (this.open.history.isDone) {
                this.open.fixShape();
            }
            return this.open.history.isDone || this.open.unknownParts() < unknown;
        }

        /** Shows the cycle, and answers what was shown. */
        show(form, duration) {
            const view = this.open.view(form);
            this.pane.show(view, this.isNext ? duration : 0);
            this.strip.goTo(this.open.cycle, this.open.cycle < this.open.history.cycles);
            return view;
        }

        /**
         * Draws the overview, where it is done or was last drawn some time ago. `length` is the
         * number of cycles that the strip has room for.
         */
        showOverview(length) {
            const { name, history } = this.open;
            const now = performance.now();
            if (history.isDone || now - this.overviewTime >= OVERVIEW_MILLISECONDS) {
                this.overviewTime = now;
                this.strip.show(name, history.overview, this.open.first, length);
            }
        }
    }

    Object.assign(viewer, { Side });
})((globalThis.viewer ??= {}));
