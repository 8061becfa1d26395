// What is in the units after a cycle: entries of lists, answers, faults, acts, and values of cells.
(function (viewer) {
    "use strict";

    const { svg, entryOf, dotOf, ENTRY, LABEL } = viewer;
    const { INP, OUT, kindOf, placeText, entryText, replyText, actText } = viewer;
    const VALUE_CHARACTER = 6;

    class Contents {
        /** `hasText` is false where the picture is so small that text can't be read. */
        constructor(layout, view, isSeen, hasText) {
            this.layout = layout;
            this.view = view;
            this.isSeen = isSeen;
            this.hasText = hasText;
            /** @type {Element[]} */
            this.drawn = [];
        }

        /** All that is drawn. */
        draw() {
            const { layout, view } = this;
            for (const [place, list] of view.cycle.places) {
                this.within(layout.boxes.get(place), (box) => this.list(place, list, box));
            }
            for (const reply of view.cycle.got) {
                this.within(layout.pes.get(reply.pe), (box) => this.answer(reply, box));
            }
            for (const fault of view.cycle.faults) {
                this.within(layout.pes.get(fault.pe), (box) => this.fault(fault, box));
            }
            for (const act of view.cycle.acts) {
                this.within(layout.modules.get(act.module), (box) => this.act(act, box));
            }
            if (this.hasText) {
                this.values();
            }
            return this.drawn;
        }

        /** Draws what is in a box, if it can be seen. */
        within(box, draw) {
            if (box && this.isSeen(box)) {
                draw(box);
            }
        }

        entry(x, y, look) {
            this.drawn.push((this.hasText ? entryOf : dotOf)(x, y, look));
        }

        /** The entries of a list, the front first. What has no room is counted. */
        list(place, list, box) {
            const isSingle = kindOf(place) === INP || kindOf(place) === OUT;
            const top = isSingle ? box.y : box.y + LABEL;
            const rooms = isSingle ? 1 : Math.floor((box.h - LABEL) / ENTRY);
            const count = list.length > rooms ? rooms - 1 : list.length;
            for (let index = 0; index < count; index++) {
                this.entry(box.x + 1, top + index * ENTRY, this.lookOf(place, list[index], box));
            }
            if (count < list.length) {
                const rest = svg("title", {}, list.slice(count).map(entryText).join("\n"));
                const at = { class: "more", x: box.x + 17, y: top + count * ENTRY + 11 };
                this.drawn.push(svg("text", at, `and ${list.length - count} more`, rest));
            }
        }

        lookOf(place, entry, box) {
            const { arrivals, cycle } = this.view;
            const classes = [
                entry.isMarked ? "marked" : "",
                "giveOld" in entry ? "record" : "",
                arrivals.has(`${place} ${entry.pe} ${entry.cell}`) ? "arriving" : "",
                this.view.isSelected(entry, cycle.number) ? "selected" : "",
            ].join(" ");
            const text = entryText(entry);
            const { pe, cell } = entry;
            return { text, title: `${placeText(place)}: ${text}`, classes, pe, cell, width: box.w - 2, what: "entry" };
        }

        answer(reply, box) {
            const text = replyText(reply);
            const isSelected = this.view.isSelected(reply, this.view.cycle.number - 1);
            const classes = isSelected ? "got selected" : "got";
            const { pe, cell } = reply;
            const look = { text, title: `got ${text}`, classes, pe, cell, width: box.w - 8, what: "got" };
            this.entry(box.x + 4, box.y + box.h - ENTRY - 2, look);
        }

        fault({ fault }, box) {
            this.drawn.push(svg("text", { class: "fault", x: box.x + 44, y: box.y + 11 }, `fault ${fault}`));
        }

        act(act, box) {
            const { selectedAct, cycle } = this.view;
            const isSelected = selectedAct?.module === act.module && selectedAct.cycle === cycle.number;
            const title = actText(act);
            const text = title.replace(/^act \d+ /, "");
            const classes = isSelected ? "act selected" : "act";
            const { pe, cell } = act.request;
            const look = { text, title, classes, pe, cell, width: box.w - 8, what: `act ${act.module}` };
            const { requestOut, replyIn } = this.layout.lanes(box.top);
            this.entry(box.x + 4, (requestOut + replyIn - 5 - ENTRY) / 2, look);
        }

        /** What is in the cells of each module. */
        values() {
            const byModule = new Map();
            for (const it of this.view.cells) {
                const module = this.layout.net.module(it.cell);
                if (!byModule.has(module)) {
                    byModule.set(module, []);
                }
                byModule.get(module).push(it);
            }
            for (const [module, cells] of byModule) {
                this.within(this.layout.modules.get(module), (box) => this.valuesOf(cells, box));
            }
        }

        /** The values of a module's cells, as far as there is room for them. */
        valuesOf(cells, box) {
            const text = cells.map(({ cell, value }) => `[${cell}] = ${value ?? "?"}`).join("  ");
            const most = Math.floor((box.w - 64) / VALUE_CHARACTER);
            const short = text.length > most ? `${text.slice(0, most - 1)}…` : text;
            const classes = cells.some((it) => it.isNew) ? "values new" : "values";
            const at = { class: classes, x: box.x + box.w - 4, y: box.y + 10 };
            this.drawn.push(svg("text", at, short, svg("title", {}, text)));
        }
    }

    Object.assign(viewer, { Contents });
})((globalThis.viewer ??= {}));
