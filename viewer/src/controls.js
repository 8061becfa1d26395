// Buttons, fields and keys.
(function (viewer) {
    "use strict";

    const { byId, fieldOf } = viewer;
    const ZOOM = 1.25;
    /** The name under which the browser keeps whether single-letter keys are on. */
    const LETTER_KEYS = "ultra viewer letter keys";

    function onClick(id, act) {
        byId(id).addEventListener("click", act);
    }

    /** Calls with a field each time that a person has changed it. */
    function onChange(id, act, event = "change") {
        byId(id).addEventListener(event, () => act(fieldOf(id)));
    }

    function zoomBy(app, factor) {
        if (app.form === "compact" && factor > 1) {
            app.changeForm("detail");
            return;
        }
        app.shown.forEach(({ pane }) => viewer.setScale(pane, Math.max(0.08, Math.min(4, pane.picture.scale * factor))));
    }

    function showWhole(app) {
        if (app.form !== "compact") {
            app.shown.forEach(({ pane }) => viewer.setScale(pane, Math.min(2, viewer.wholeScale(pane))));
        }
    }

    function goToChosenEvent(app, direction) {
        app.goToEvent(fieldOf("event-sort").value, Number(fieldOf("event-number").value), direction);
    }

    /** Shows a form of the picture, or where that is shown already the detailed one. */
    function toggleForm(app, form) {
        app.changeForm(app.form === form ? "detail" : form);
    }

    function connectCycles(app) {
        onClick("first", () => app.goTo(app.first));
        onClick("back", () => app.stepBy(-1));
        onClick("play", () => app.player.toggle());
        onClick("forward", () => app.stepBy(1));
        onClick("last", () => app.goTo(app.last));
        onChange("slider", (field) => app.goTo(Number(field.value)), "input");
        onChange("cycle", (field) => app.goTo(Math.floor(Number(field.value) || 0)));
        onChange("speed", (field) => {
            app.player.cyclesPerSecond = Number(field.value);
        });
    }

    /** The single-letter keys can be turned off, and the page keeps that. */
    function connectLetterKeys(app) {
        const read = () => {
            try {
                return localStorage.getItem(LETTER_KEYS) !== "off";
            } catch {
                return true;
            }
        };
        app.hasLetterKeys = read();
        fieldOf("letters").checked = app.hasLetterKeys;
        onChange("letters", (field) => {
            app.hasLetterKeys = field.checked;
            try {
                localStorage.setItem(LETTER_KEYS, field.checked ? "on" : "off");
            } catch {
                // a page that may keep nothing forgets it
            }
        });
    }

    /** Saves the picture that is shown, all of it. */
    async function save(app, kind) {
        const { pane, open } = app;
        pane.drawWhole();
        await viewer.savePicture(pane.element, `${open.name}_cycle_${open.cycle}`, kind);
        pane.draw();
    }

    function connectPaper(app) {
        onClick("save-svg", () => save(app, "svg"));
        onClick("save-png", () => save(app, "png"));
        addEventListener("beforeprint", () => app.shown.forEach(({ pane }) => pane.drawWhole()));
        addEventListener("afterprint", () => app.shown.forEach(({ pane }) => pane.draw()));
        matchMedia("(prefers-color-scheme: dark)").addEventListener("change", () => app.shown.forEach(({ strip }) => strip.draw()));
    }

    function connectPicture(app) {
        onClick("smaller", () => zoomBy(app, 1 / ZOOM));
        onClick("larger", () => zoomBy(app, ZOOM));
        onClick("fit", () => showWhole(app));
        onChange("folded", () => toggleForm(app, "folded"));
        onChange("compact", () => toggleForm(app, "compact"));
        onChange("motion", (field) => {
            app.hasMotion = field.checked;
        });
        onChange("texts", (field) => showTexts(app, field.checked));
        connectWindow(app);
    }

    /** With the texts hidden the picture has the width of the page. */
    function showTexts(app, isShown) {
        fieldOf("texts").checked = isShown;
        byId("side").hidden = !isShown;
        app.shown.forEach(({ pane }) => viewer.chooseScale(pane));
        app.shown.forEach(({ strip }) => strip.draw());
    }

    /** Draws what comes into sight. */
    function connectWindow(app) {
        let isWaiting = false;
        const redraw = () => {
            isWaiting = false;
            if (app.open) {
                app.shown.forEach(({ pane }) => pane.noteWindow());
            }
        };
        const later = () => {
            if (!isWaiting) {
                isWaiting = true;
                requestAnimationFrame(redraw);
            }
        };
        addEventListener("resize", () => {
            later();
            app.shown.forEach(({ strip }) => strip.draw());
        });
        for (const { pane } of app.sides) {
            pane.window.addEventListener("scroll", later);
            pane.window.addEventListener("wheel", (event) => {
                if (event.ctrlKey) {
                    event.preventDefault();
                    zoomBy(app, event.deltaY < 0 ? 1.1 : 1 / 1.1);
                }
            }, { passive: false });
        }
    }

    /** A click on an entry shows its request, and one on an act its tree. */
    function connectPane(app, { pane }, index) {
        pane.window.addEventListener("pointerdown", () => app.activate(index));
        pane.picture.element.addEventListener("click", (event) => {
            const data = /** @type {HTMLElement | null} */ (/** @type {Element} */ (event.target).closest("[data-what]"))?.dataset;
            if (!data) {
                return;
            }
            const [what, module] = data.what.split(" ");
            if (what === "act") {
                app.showAct({ cycle: app.open.cycle, module: Number(module) });
            } else {
                const message = { pe: Number(data.pe), cell: Number(data.cell) };
                const { cycle } = app.open;
                app.showRequest(viewer.requestAt(app.history, message, what === "got" ? cycle - 1 : cycle));
            }
        });
        pane.compact.element.addEventListener("click", (event) => {
            const place = pane.compact.placeAt(event);
            if (place !== null) {
                app.showDetail(place);
            }
        });
    }

    function connectClicks(app) {
        app.sides.forEach((it, index) => {
            connectPane(app, it, index);
            it.title.addEventListener("click", () => app.activate(index));
        });
        byId("entries-box").addEventListener("toggle", () => app.open && app.show(0));
        onClick("close-story", () => app.closeStory());
        onChange("chosen-pe", () => app.show(0));
        onClick("close-beside", () => app.closeBeside());
        onChange("together", (field) => app.setTogether(field.value));
    }

    function connectEvents(app) {
        onClick("next-act", () => app.goToEvent("act", 0, 1));
        onClick("next-combination", () => app.goToEvent("combination", 0, 1));
        onClick("next-event", () => goToChosenEvent(app, 1));
    }

    /** What each key does. With Shift the events are looked for backward. */
    function actOfKey(app, event) {
        const direction = event.shiftKey ? -1 : 1;
        const acts = {
            ArrowRight: () => app.stepBy(1),
            ArrowLeft: () => app.stepBy(-1),
            " ": () => app.player.toggle(),
            Home: () => app.goTo(app.first),
            End: () => app.goTo(app.last),
            a: () => app.goToEvent("act", 0, direction),
            c: () => app.goToEvent("combination", 0, direction),
            e: () => goToChosenEvent(app, direction),
            "+": () => zoomBy(app, ZOOM),
            "-": () => zoomBy(app, 1 / ZOOM),
            0: () => showWhole(app),
            f: () => toggleForm(app, "folded"),
            o: () => toggleForm(app, "compact"),
            x: () => app.activate(1 - app.active),
            t: () => showTexts(app, byId("side").hidden),
            Escape: () => app.closeStory(),
        };
        return acts[event.key.length === 1 ? event.key.toLowerCase() : event.key];
    }

    function connectKeys(app) {
        document.addEventListener("keydown", (event) => {
            const isOfBrowser = event.ctrlKey || event.metaKey || event.altKey;
            const isOff = !app.hasLetterKeys && viewer.isLetterKey(event.key);
            if (!app.open || isOfBrowser || isOff || viewer.isOwnKey(event.target, event.key)) {
                return;
            }
            const act = actOfKey(app, event);
            if (act) {
                event.preventDefault();
                act();
            }
        });
    }

    function connect(app) {
        connectCycles(app);
        connectEvents(app);
        connectPicture(app);
        connectPaper(app);
        connectLetterKeys(app);
        connectClicks(app);
        connectKeys(app);
    }

    Object.assign(viewer, { connect });
})((globalThis.viewer ??= {}));
