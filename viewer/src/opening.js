// Opens traces: from a file that is chosen or dropped on the page, or from those that the page has
// in it.
(function (viewer) {
    "use strict";

    const { App, byId, fieldOf } = viewer;
    let openings = 0;

    /** The traces that `viewer/page` wrote into the page: their names and texts. */
    function tracesInPage() {
        /** @type {NodeListOf<HTMLElement>} */
        const found = document.querySelectorAll("script[type='application/json'][data-trace]");
        return [...found].map((it) => ({ name: it.dataset.trace, bytes: () => bytesOf(it) }));
    }

    function bytesOf(element) {
        return new TextEncoder().encode(JSON.parse(element.textContent));
    }

    /** The texts of the page that belong to a trace of it: its program, its settings, its steps. */
    function textsOf(trace) {
        /** @type {NodeListOf<HTMLElement>} */
        const found = document.querySelectorAll("script[type='application/json'][data-of]");
        return [...found].filter((it) => it.dataset.of === trace).map((it) => ({ name: it.dataset.text, bytes: bytesOf(it) }));
    }

    /**
     * Begins an opening, and answers a test of whether it is still the newest. A large file may
     * have been read only after another trace was chosen.
     */
    function beginOpening() {
        openings += 1;
        const number = openings;
        return () => number === openings;
    }

    /**
     * Opens files. A trace that is opened again stays at its cycle, and the first goes where the
     * address leads.
     */
    async function openFiles(app, files) {
        if (files.length === 0) {
            return;
        }
        const isNewest = beginOpening();
        const names = files.map((it) => it.name);
        const isSame = !app.open || names.includes(app.name);
        const address = isSame ? viewer.readAddress(location.hash) : {};
        app.screen.say(`Reading ${names.join(", ")} …`);
        const read = (file) => file.arrayBuffer().then((bytes) => ({ name: file.name, bytes: new Uint8Array(bytes) }));
        const complain = (error) => {
            if (isNewest()) {
                app.screen.say(`${names.join(", ")} can't be read: ${error.message}`);
            }
        };
        const found = await Promise.all(files.map(read)).catch(complain);
        if (found && isNewest()) {
            app.screen.say("");
            app.isListed = false;
            app.openFiles(found, address);
        }
    }

    /** Opens a file beside the trace that is open. */
    async function openFileBeside(app, file) {
        const bytes = await file?.arrayBuffer().catch((error) => app.screen.say(`${file.name} can't be read: ${error.message}`));
        if (bytes && app.open) {
            app.isListed = false;
            app.openBeside(file.name, new Uint8Array(bytes));
        }
    }

    function openListed(app, traces, name, address) {
        beginOpening();
        const found = traces.find((it) => it.name === name) ?? traces[0];
        app.isListed = true;
        fieldOf("traces").value = found.name;
        fieldOf("besides").value = "";
        app.openFiles([{ name: found.name, bytes: found.bytes() }, ...textsOf(found.name)], address);
        openListedBeside(app, traces, address.beside);
        const lacking = [address.trace, address.beside].find((it) => it && !traces.some(({ name }) => name === it));
        if (app.open && lacking) {
            app.screen.say(`This page has no trace ${lacking}.`);
        }
        if (app.open && address.beside) {
            fieldOf("together").value = address.together ?? "cycle";
            app.setTogether(fieldOf("together").value);
        }
    }

    /** Shows a trace of the page beside the one that is open, or none. */
    function openListedBeside(app, traces, name) {
        const found = traces.find((it) => it.name === name);
        fieldOf("besides").value = found?.name ?? "";
        if (app.open && found) {
            app.openBeside(found.name, found.bytes());
        } else if (app.shown.length > 1) {
            app.closeBeside();
        }
    }

    function connectFiles(app) {
        byId("file").addEventListener("change", () => {
            openFiles(app, [...fieldOf("file").files]);
            fieldOf("file").value = "";
        });
        byId("file-beside").addEventListener("change", () => {
            openFileBeside(app, fieldOf("file-beside").files[0]);
            fieldOf("file-beside").value = "";
        });
        addEventListener("dragover", (event) => {
            event.preventDefault();
            document.body.classList.add("dropping");
        });
        addEventListener("dragleave", () => document.body.classList.remove("dropping"));
        addEventListener("drop", (event) => {
            event.preventDefault();
            document.body.classList.remove("dropping");
            openFiles(app, [...event.dataTransfer.files]);
        });
    }

    function connectList(app, traces) {
        const options = () => traces.map((it) => viewer.html("option", { value: it.name }, it.name));
        byId("trace-choice").hidden = traces.length < 2;
        byId("beside-choice").hidden = traces.length < 2;
        byId("traces").replaceChildren(...options());
        byId("besides").replaceChildren(viewer.html("option", { value: "" }, "none"), ...options());
        byId("besides").addEventListener("change", () => openListedBeside(app, traces, fieldOf("besides").value));
        byId("traces").addEventListener("change", () => openListed(app, traces, fieldOf("traces").value, {}));
    }

    /** Whether an address names other traces than those that are open. */
    function isOther(app, { trace, beside }) {
        const [first, second] = app.sides.map((it) => it.open?.name);
        return trace !== first || (beside ?? undefined) !== second;
    }

    function followAddress(app, traces, hash) {
        const address = viewer.readAddress(hash);
        if (traces.length > 0 && (!app.open || (address.trace && isOther(app, address)))) {
            openListed(app, traces, address.trace, address);
        } else if (app.open) {
            app.goToLink(address);
        }
    }

    const app = new App();
    const traces = tracesInPage();
    viewer.connect(app);
    Object.assign(viewer, { app });
    connectFiles(app);
    connectList(app, traces);
    // by now the page may have written another address, of what it showed before
    addEventListener("hashchange", (event) => followAddress(app, traces, new URL(event.newURL).hash));
    followAddress(app, traces, location.hash);
})((globalThis.viewer ??= {}));
