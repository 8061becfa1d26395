// Brings the page up to date: its texts, its controls and its address.
(function (viewer) {
    "use strict";

    const { byId, fieldOf, html, movesText } = viewer;
    const ADDRESS_MILLISECONDS = 200;
    /** So many sentences of a cycle are spoken by a screen reader. */
    const SPOKEN_SENTENCES = 5;

    function peText(it) {
        const registers = it.registers.map(({ register, value }) => ` r${register}=${value}`).join("");
        return `PE ${it.pe}: ${it.state}, at instruction ${it.counter}${registers}`;
    }

    /** Sets a text where it differs: a screen reader may speak it each time that it is set. */
    function setText(element, text) {
        if (element.textContent !== text) {
            element.textContent = text;
        }
    }

    /** Where a text was cut off: in a line, in a cycle, in its end, or before it. */
    function cutText({ trace, isLastWhole }) {
        const { lines, isInLine, isInCycle } = trace.cut;
        const guess = `Its end would name the number of PEs; ${trace.net.size} is a guess from the places that occur.`;
        if (isInLine) {
            return `The text was cut off in the middle of its line ${lines + 1}. ${guess}`;
        }
        if (!isInCycle) {
            return `The text was cut off in its end, after its line ${lines}. ${guess}`;
        }
        const inCycle = `The text was cut off in cycle ${trace.last}, after its line ${lines}.`;
        const behind = `The text was cut off after cycle ${trace.last}: it has no end.`;
        return `${isLastWhole ? behind : inCycle} ${guess}`;
    }

    function endingText(open) {
        const { trace } = open;
        if (trace.cut) {
            return cutText(open);
        }
        const how = trace.end.isQuiet ? "ends quiet" : "ends at its limit on cycles";
        if (!trace.part) {
            return `It ${how}.`;
        }
        return trace.isToEnd ? `It goes to the end of the run, which ${how}.` : `The run ${how}, in this part's last cycle or later.`;
    }

    function factsText(open) {
        const { name, trace } = open;
        const cycles = `${trace.count} ${trace.count === 1 ? "cycle" : "cycles"}`;
        const part = trace.part ? `a part, cycles ${trace.first} to ${trace.last}` : cycles;
        return `${name}: ${part}, ${trace.net.size} PEs. ${endingText(open)}`;
    }

    /** Marks a button that does nothing. The attribute `disabled` would take the focus from it. */
    function setDisabled(button, isDisabled) {
        button.setAttribute("aria-disabled", isDisabled);
    }

    function isVisible(element) {
        return element.isConnected && element.closest("[hidden]") === null;
    }

    /**
     * Replaces texts. Where this takes away the button that has the focus, the one with the same
     * name gets it, or the picture. Else a reader by keyboard would begin at the top of the page.
     */
    function keepFocus(replace) {
        const focused = document.activeElement;
        const panel = focused?.closest("#story, #happenings, #cells, #entries");
        replace();
        if (panel && !isVisible(focused)) {
            const buttons = [...panel.querySelectorAll("button")].filter(isVisible);
            const same = buttons.find((it) => it.textContent === focused.textContent);
            (same ?? byId("scroller")).focus({ preventScroll: true });
        }
    }

    class Screen {
        /** `actions` has what a click on a text does; `panels.js` says which they are. */
        constructor(actions) {
            this.actions = actions;
            this.addressTimer = null;
        }

        /** Shows the page without a trace. */
        close() {
            this.say("");
            byId("opened").hidden = true;
            byId("refusal").hidden = true;
            byId("facts").textContent = "";
            byId("progress").textContent = "";
        }

        refuse(text) {
            this.close();
            byId("welcome").hidden = false;
            byId("refusal").hidden = false;
            byId("refusal").textContent = text;
        }

        say(text) {
            byId("notice").hidden = text === "";
            setText(byId("notice"), text);
        }

        /** What the traces are, and how far they go. The texts are those of the active one. */
        showTraces(sides, active, first, last) {
            const { open } = sides[active];
            const { trace } = open;
            byId("welcome").hidden = true;
            byId("opened").hidden = false;
            byId("pictures").classList.toggle("two", sides.length > 1);
            byId("together-choice").hidden = sides.length < 2;
            byId("close-beside").hidden = sides.length < 2;
            for (const id of ["cycle", "slider"]) {
                fieldOf(id).min = `${first}`;
                fieldOf(id).max = `${last}`;
            }
            byId("of").textContent = `of ${last}`;
            byId("ending-text").textContent = trace.end ? trace.end.pes.map(peText).join("\n") : "";
            document.title = `${open.name}: trace viewer of ultra`;
            setText(byId("facts"), factsText(open));
            byId("facts").classList.toggle("cut", trace.cut !== null);
        }

        /** Where there are two traces, each has its name and its cycle above its picture. */
        showTitles(sides, active) {
            sides.forEach(({ title, open }, index) => {
                const { cycle, last, name } = open;
                title.hidden = sides.length < 2;
                setText(title, `${name}: cycle ${cycle}${cycle === last ? ", its last" : ` of ${last}`}`);
                title.setAttribute("aria-pressed", `${index === active}`);
            });
        }

        /** How far a long trace is worked out. It isn't spoken, since it changes all the time. */
        showProgress(traces) {
            const found = traces.find((it) => !it.history.isDone);
            const done = found && found.history.cycles - found.trace.first;
            const part = found && Math.floor((100 * done) / found.trace.count);
            const far = `Stories, events and cells are worked out up to cycle ${found?.history.cycles} (${part} %).`;
            byId("progress").textContent = found ? far : "";
        }

        showPlayer(isPlaying) {
            const [mark, word] = isPlaying ? ["❚❚", "Pause"] : ["▶", "Play"];
            byId("play").replaceChildren(html("span", { "aria-hidden": "true" }, mark), ` ${word}`);
            byId("announcement").setAttribute("aria-live", isPlaying ? "off" : "polite");
        }

        /** Shows the cycle that a trace is at, and the cycle of the page that may be after its end. */
        showCycle(open, view, cycle, first, last) {
            this.showControls(cycle, first, last);
            byId("cycle-name").textContent = open.cycle;
            keepFocus(() => this.showTexts(open, view));
        }

        showControls(cycle, first, last) {
            fieldOf("cycle").value = cycle;
            fieldOf("slider").value = cycle;
            byId("slider").setAttribute("aria-valuetext", `cycle ${cycle} of ${last}`);
            [byId("first"), byId("back")].forEach((it) => setDisabled(it, cycle === first));
            [byId("last"), byId("forward")].forEach((it) => setDisabled(it, cycle === last));
        }

        showTexts({ trace, cycle, last, selected, execution }, view) {
            const { actions } = this;
            this.showProgram(execution, cycle);
            viewer.happeningsPanel(byId("happenings"), view, actions);
            viewer.cellsPanel(byId("cells"), view, actions);
            const box = /** @type {HTMLDetailsElement} */ (byId("entries-box"));
            if (box.open) {
                viewer.entriesPanel(byId("entries"), view, actions);
            }
            viewer.textPanel(byId("text"), trace, cycle);
            byId("story").hidden = !selected;
            if (selected?.request) {
                viewer.requestPanel(byId("story-text"), selected.request, view, actions);
            } else if (selected?.act) {
                viewer.actPanel(byId("story-text"), selected.act, actions);
            }
            byId("ending").hidden = cycle !== last || !trace.end;
            const sentences = [...byId("happenings").querySelectorAll("li")].map((it) => it.textContent);
            const spoken = [movesText(view.step), ...sentences.slice(0, SPOKEN_SENTENCES)];
            setText(byId("announcement"), `Cycle ${cycle}. ${spoken.join(" ")}`);
        }

        /** The program, the registers of a PE, and the settings, as far as their texts are open. */
        showProgram(execution, cycle) {
            const { steps, program, settings, trace } = execution;
            byId("program-box").hidden = !steps && !program;
            byId("registers").hidden = !steps;
            byId("settings-text").hidden = !settings;
            byId("settings-text").textContent = settings ? viewer.settingsText(settings) : "";
            const pe = Math.min(Number(fieldOf("chosen-pe").value) || 0, trace.net.size - 1);
            fieldOf("chosen-pe").max = `${trace.net.size - 1}`;
            if (steps || program) {
                viewer.listingPanel(byId("listing"), execution, cycle, steps ? pe : null);
            }
            if (steps) {
                viewer.registersPanel(byId("registers"), execution, cycle, pe);
            }
        }

        /** The next event that is looked for is one of the cell or of the PE of this request. */
        chooseEvents(request) {
            if (request) {
                fieldOf("event-number").value = fieldOf("event-sort").value === "pe" ? request.pe : request.cell;
                fieldOf("chosen-pe").value = request.pe;
            }
        }

        /**
         * Writes the address soon: browsers refuse a page that changes it very often. `hashOf`
         * gives what it is then, or null where there is nothing to write.
         */
        showAddress(hashOf) {
            this.addressTimer ??= setTimeout(() => {
                this.addressTimer = null;
                const hash = hashOf();
                if (hash !== null) {
                    history.replaceState(null, "", hash);
                }
            }, ADDRESS_MILLISECONDS);
        }
    }

    Object.assign(viewer, { Screen });
})((globalThis.viewer ??= {}));
