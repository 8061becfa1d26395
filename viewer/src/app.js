// The page: which traces are shown, and what the buttons, keys, links and clicks do.
(function (viewer) {
    "use strict";

    const { Fault, Side, Player, Screen, byId, fieldOf } = viewer;
    /** Machines with so many stages are first shown compact. */
    const COMPACT_STAGES = 5;
    const STILL_WORKING = "The trace is still being worked out; try again.";
    const CUT_BEFORE = "The text was cut off before this story.";

    class App {
        constructor() {
            this.screen = new Screen({
                showRequest: (request) => this.showRequest(request),
                showAct: (act) => this.showAct(act),
                goTo: (cycle) => this.goTo(cycle),
                showAll: () => this.showAll(),
            });
            /** The trace that is open, and the one that is shown beside it. */
            this.sides = ["", "-2"].map((suffix, index) => new Side(suffix, (cycle) => this.goToOf(index, cycle)));
            /** The index of the side whose texts are shown. */
            this.active = 0;
            /** The cycle that is shown. Of two traces, one may have ended before it. */
            this.cycle = 0;
            /** What both traces are at the same number of: `cycle`, or a series of the overview. */
            this.together = "cycle";
            this.player = new Player(() => this.stepBy(1), () => this.screen.showPlayer(this.player.isPlaying));
            /** Whether the page has the trace in it, so that a link can name it. */
            this.isListed = false;
            /** The form of the picture: `detail`, `folded` or `compact`. */
            this.form = "detail";
            this.hasMotion = !matchMedia("(prefers-reduced-motion: reduce)").matches;
            this.hasAll = false;
            /** Texts that were opened before their trace. */
            this.waiting = [];
            /** Whether keys of one letter do something. */
            this.hasLetterKeys = true;
            fieldOf("motion").checked = this.hasMotion;
        }

        get side() {
            return this.sides[this.active];
        }

        /** The trace whose texts are shown, or null. */
        get open() {
            return this.side.open;
        }

        /** The sides that have a trace. */
        get shown() {
            return this.sides.filter((it) => it.open);
        }

        get trace() {
            return this.open?.trace ?? null;
        }

        get history() {
            return this.open?.history ?? null;
        }

        get name() {
            return this.open?.name ?? "";
        }

        get pane() {
            return this.side.pane;
        }

        get picture() {
            return this.pane.picture;
        }

        get window() {
            return this.pane.window;
        }

        get isCompact() {
            return this.pane.isCompact;
        }

        /** The first cycle that can be gone to, and the last one. */
        get first() {
            return this.together === "cycle" ? Math.min(...this.shown.map((it) => it.open.first)) : this.open.first;
        }

        get last() {
            return this.together === "cycle" ? Math.max(...this.shown.map((it) => it.open.last)) : this.open.last;
        }

        draw() {
            this.shown.forEach((it) => it.pane.draw());
        }

        /**
         * Opens a text. One that isn't a trace is refused, with the line and what was expected
         * there.
         */
        openText(name, bytes, address = {}) {
            this.close();
            try {
                this.sides[0].openText(name, bytes);
            } catch (fault) {
                this.refuse(name, fault);
                return;
            }
            this.address = address;
            this.cycle = this.open.first;
            this.setForm(address.form ?? this.usualForm);
            this.showTraces();
        }

        /**
         * Opens files in any order: traces, and texts that belong to them. The first trace is opened,
         * and a second beside it; the other texts belong to the first, or to the one that is open.
         */
        openFiles(files, address = {}) {
            const sorted = files.map((it) => ({ ...it, sort: viewer.sortOfBytes(it.bytes) }));
            const traces = sorted.filter((it) => it.sort === "trace");
            const texts = sorted.filter((it) => it.sort !== "trace");
            if (traces.length > 0) {
                this.openText(traces[0].name, traces[0].bytes, address);
            }
            if (this.open) {
                this.take([...this.waiting, ...texts]);
                this.waiting = [];
            } else if (traces.length === 0) {
                this.waiting.push(...texts);
                this.screen.refuse(`${texts.map((it) => it.name).join(", ")}: open the trace to which this belongs, too.`);
            }
            if (this.open && traces.length > 1) {
                this.openBeside(traces[1].name, traces[1].bytes);
            }
        }

        /** Takes texts that belong to the open trace, and says which of them don't. */
        take(texts) {
            const reasons = texts.map((it) => this.reasonAgainst(it)).filter(Boolean);
            if (texts.length > 0) {
                this.side.overviewTime = -Infinity;
                this.showOverviews();
                this.show(0);
                this.screen.say(reasons.join(" "));
            }
        }

        /** Takes a text. Answers why it doesn't belong to the open trace, or null. */
        reasonAgainst({ name, bytes, sort }) {
            try {
                this.open.take(sort, new TextDecoder().decode(bytes));
                return null;
            } catch (fault) {
                if (!(fault instanceof Fault)) {
                    throw fault;
                }
                const misfit = `${name} doesn't belong to ${this.name}: ${fault.expected}.`;
                return fault.isMisfit ? misfit : `${name}: line ${fault.line}: expected ${fault.expected}.`;
            }
        }

        /** Opens a text beside the trace that is open. */
        openBeside(name, bytes) {
            this.closeBeside();
            try {
                this.sides[1].openText(name, bytes);
            } catch (fault) {
                this.sides[1].close();
                this.screen.say(`${this.reasonOf(name, fault)} So it isn't shown beside ${this.name}.`);
                return;
            }
            this.align();
            this.showTraces();
        }

        closeBeside() {
            this.active = 0;
            this.sides[1].close();
            if (this.open) {
                this.cycle = this.open.cycle;
                this.showTraces();
            }
        }

        /** Shows traces that were just opened. */
        showTraces() {
            clearTimeout(this.work);
            this.hasAll = false;
            this.screen.showTraces(this.shown, this.active, this.first, this.last);
            this.shown.forEach((it) => (it.overviewTime = -Infinity));
            this.showOverviews();
            this.show(0);
            if (this.open) {
                this.shown.forEach((it) => viewer.chooseScale(it.pane));
                this.workOn();
            }
        }

        close() {
            this.player.stop();
            clearTimeout(this.work);
            this.active = 0;
            this.sides.forEach((it) => it.close());
            this.screen.close();
        }

        /** Why a text isn't a trace. */
        reasonOf(name, fault) {
            if (!(fault instanceof Fault)) {
                throw fault;
            }
            const end = fault.isCut ? ", but the text ends there" : "";
            return `${name} isn't a trace. Line ${fault.line}: expected ${fault.expected}${end}.`;
        }

        refuse(name, fault) {
            const reason = this.reasonOf(name, fault);
            this.close();
            this.screen.refuse(reason);
        }

        /** Calls for a side, whose trace is refused where a fault is found in it. */
        attempt(side, act) {
            try {
                return act(side);
            } catch (fault) {
                this.refuse(side.open.name, fault);
                return undefined;
            }
        }

        /** Works out the histories in slices, so that the page answers meanwhile. */
        workOn() {
            this.screen.showProgress(this.shown.map((it) => it.open));
            this.showOverviews();
            this.follow(this.address);
            const side = this.shown.find((it) => !it.open.history.isDone);
            if (side) {
                this.work = setTimeout(() => this.workSlice(side));
            } else if (this.open) {
                this.shown.forEach((it) => it.open.fixShape());
                this.align();
                this.show(0);
            }
        }

        /** Works out a slice. What is shown is shown again as soon as more of it is known. */
        workSlice(side) {
            if (this.attempt(side, (it) => it.workSlice())) {
                this.show(0);
            }
            if (this.open) {
                this.workOn();
            }
        }

        showOverviews() {
            const length = Math.max(...this.shown.map((it) => it.open.trace.count));
            this.shown.forEach((it) => it.showOverview(length));
        }

        /** A machine whose detailed picture doesn't fit the page is first shown compact. */
        get usualForm() {
            return this.trace.net.stages >= COMPACT_STAGES ? "compact" : "detail";
        }

        setForm(form) {
            this.form = form;
            fieldOf("folded").checked = form === "folded";
            fieldOf("compact").checked = form === "compact";
        }

        /** Shows another form of the picture, from its beginning. */
        changeForm(form) {
            const isScaled = this.form !== "compact";
            this.setForm(form);
            this.show(0);
            for (const { pane } of this.shown) {
                if (!isScaled) {
                    viewer.chooseScale(pane);
                }
                pane.window.scrollTo(0, 0);
            }
        }

        /** Shows a list of the compact picture in detail. */
        showDetail(place) {
            this.changeForm("detail");
            viewer.setScale(this.pane, 1);
            viewer.revealPlace(this.pane, place);
        }

        /** Shows the texts of another side. */
        activate(index) {
            if (index !== this.active && this.sides[index].open) {
                this.active = index;
                this.hasAll = false;
                if (this.together !== "cycle") {
                    this.cycle = this.open.cycle;
                }
                this.screen.showTraces(this.shown, this.active, this.first, this.last);
                this.show(0);
            }
        }

        /** Chooses what both traces are at the same number of. */
        setTogether(name) {
            this.together = name;
            this.cycle = this.open.cycle;
            this.screen.showTraces(this.shown, this.active, this.first, this.last);
            this.align();
            this.show(0);
        }

        /** Takes the other trace to where it is to be beside the active one. */
        align() {
            for (const side of this.shown.filter((it) => it !== this.side)) {
                side.goTo(this.cycleBeside(side.open));
            }
        }

        /**
         * The cycle at which a trace is beside the active one: the same, or that of the last event
         * which the active one has had, counted from the beginning of each.
         */
        cycleBeside({ history, first, last }) {
            if (this.together === "cycle") {
                return this.cycle;
            }
            const number = viewer.countUpTo(this.history.overview[this.together], this.open.cycle - this.open.first);
            const index = number === 0 ? 0 : viewer.indexOfEvent(history.overview[this.together], number);
            return index === null ? last : first + index;
        }

        /**
         * Goes where a link leads on the page that is open. A story that it doesn't name is closed.
         */
        goToLink(address) {
            this.address = address;
            this.open.selected = null;
            this.setForm(address.form ?? this.usualForm);
            this.show(0);
            if (this.open) {
                this.follow(address);
            }
        }

        /** Goes where an address leads. What isn't worked out yet is tried again later. */
        follow(address) {
            const { cycle, request, act } = address;
            const { first, last, history } = this.open;
            const found = request && this.open.findRequest(request);
            const foundAct = act && this.open.findAct({ cycle: act[0], module: act[1] });
            if (found ?? foundAct) {
                this.open.selected = found ? { request: found } : { act: foundAct };
            }
            if (cycle !== undefined || found || foundAct) {
                const isLater = (request && !found) || (act && !foundAct);
                this.address = isLater ? { ...address, cycle: undefined } : {};
                this.goTo(cycle ?? this.cycle, 0);
                if (this.open) {
                    viewer.revealStory(this.pane);
                }
            }
            if (cycle > last || cycle < first) {
                this.screen.say(`There is no cycle ${cycle}: ${first > 0 ? `the first is ${first}, and ` : ""}the last is ${last}.`);
            }
            if (this.open && history.isDone) {
                this.sayMissing(this.address);
            }
        }

        /** Says what a link leads to that isn't in the trace. */
        sayMissing({ request, act }) {
            this.address = {};
            if (request && !this.open.findRequest(request)) {
                this.screen.say(`There is no request ${request.join(".")} in this trace.`);
            } else if (act && !this.open.findAct({ cycle: act[0], module: act[1] })) {
                this.screen.say(`Module ${act[1]} doesn't act in cycle ${act[0]}.`);
            }
        }

        goTo(cycle, duration = this.duration()) {
            this.screen.say("");
            this.cycle = Math.max(this.first, Math.min(this.last, cycle));
            this.side.goTo(this.cycle);
            this.align();
            this.hasAll = false;
            this.show(duration);
        }

        /** Goes to a cycle of one side. */
        goToOf(index, cycle) {
            this.activate(index);
            this.goTo(cycle);
        }

        /** Goes so many cycles on, and answers whether there was such a cycle. */
        stepBy(count) {
            const cycle = this.cycle + count;
            if (cycle < this.first || cycle > this.last) {
                return false;
            }
            this.goTo(cycle);
            this.shown.forEach((it) => viewer.revealMoves(it.pane));
            return true;
        }

        duration() {
            return this.hasMotion ? Math.min(600, 700 / (this.player.isPlaying ? this.player.cyclesPerSecond : 1)) : 0;
        }

        /** Goes to the next event of a sort, or to the one before it. */
        goToEvent(sort, number, direction) {
            const cycle = viewer.nextCycle(this.open.eventCycles(sort, number), this.cycle, direction);
            if (cycle !== null) {
                this.goTo(cycle);
                if (this.open) {
                    viewer.revealEvent(this.pane, sort, number);
                }
                return;
            }
            const isOpen = direction > 0 && !this.history.isDone;
            const none = `There is none ${direction > 0 ? "after" : "before"} this cycle.`;
            this.screen.say(isOpen ? STILL_WORKING : none);
        }

        showRequest(request) {
            this.screen.chooseEvents(request);
            this.select(request && { request });
        }

        showAct({ cycle, module }) {
            const act = this.open.findAct({ cycle, module });
            this.select(act && { act });
        }

        /**
         * Shows a story. Without one it says why: it isn't worked out yet, or the text was cut off.
         */
        select(selected) {
            this.open.selected = selected ?? null;
            this.screen.say(selected ? "" : this.history.isDone ? CUT_BEFORE : STILL_WORKING);
            this.show(0);
            viewer.revealStory(this.pane);
            byId("story").scrollIntoView({ block: "nearest" });
        }

        closeStory() {
            this.screen.say("");
            this.open.selected = null;
            this.show(0);
        }

        /** Shows lists as long as they are, until the cycle changes. */
        showAll() {
            this.hasAll = true;
            this.show(0);
        }

        /** Shows the cycle. A fault in it is found here where its history isn't worked out yet. */
        show(duration) {
            document.body.style.setProperty("--motion", `${duration}ms`);
            for (const side of this.shown) {
                const view = this.attempt(side, (it) => it.show(this.form, duration));
                if (!view) {
                    return;
                }
                if (side === this.side) {
                    this.screen.showCycle(side.open, { ...view, hasAll: this.hasAll }, this.cycle, this.first, this.last);
                }
            }
            this.screen.showTitles(this.shown, this.active);
            this.screen.showAddress(() => this.hash());
        }

        /** The address of what is shown; a trace is named where the page has it in it. */
        hash() {
            if (!this.open) {
                return null;
            }
            const form = this.form === this.usualForm ? null : this.form;
            const [first, second] = this.sides.map((it) => it.open?.name);
            const names = this.isListed ? { trace: first, beside: second } : {};
            const together = second && this.together !== "cycle" ? this.together : null;
            return viewer.writeAddress({ ...names, together, cycle: this.cycle, form, ...this.open.selected });
        }
    }

    Object.assign(viewer, { App });
})((globalThis.viewer ??= {}));
