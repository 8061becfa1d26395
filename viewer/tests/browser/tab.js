// A tab of Chromium: what a person does in it, and what can be seen there.
"use strict";

const fs = require("node:fs");
const { Page } = require("./page.js");

const KEYS = { ArrowRight: 39, ArrowLeft: 37, ArrowUp: 38, ArrowDown: 40, Enter: 13, Home: 36, End: 35, Escape: 27, Tab: 9, " ": 32 };

class Tab extends Page {
    constructor(browser, session) {
        super();
        this.browser = browser;
        this.session = session;
        /**
         * What the page wrote to its console, with its errors, and the addresses that it asked for.
         */
        this.complaints = [];
        this.addresses = [];
        browser.listeners.push((it) => it.sessionId === session && this.note(it));
    }

    static async open(browser, width = 1280, height = 800) {
        const { targetId } = await browser.send("Target.createTarget", { url: "about:blank" });
        const { sessionId } = await browser.send("Target.attachToTarget", { targetId, flatten: true });
        const tab = new Tab(browser, sessionId);
        for (const domain of ["Page", "Runtime", "Log", "Network", "DOM"]) {
            await tab.send(`${domain}.enable`);
        }
        await tab.resize(width, height);
        return tab;
    }

    send(method, params) {
        return this.browser.send(method, params, this.session);
    }

    resize(width, height) {
        return this.send("Emulation.setDeviceMetricsOverride", { width, height, deviceScaleFactor: 1, mobile: false });
    }

    note({ method, params }) {
        if (method === "Runtime.consoleAPICalled") {
            this.complaints.push(params.args.map((it) => it.value ?? it.description).join(" "));
        } else if (method === "Runtime.exceptionThrown") {
            this.complaints.push(params.exceptionDetails.exception?.description ?? params.exceptionDetails.text);
        } else if (method === "Log.entryAdded") {
            this.complaints.push(params.entry.text);
        } else if (method === "Network.requestWillBeSent") {
            this.addresses.push(params.request.url);
        } else if (method === "Page.loadEventFired") {
            this.loaded?.();
        }
    }

    async goTo(address) {
        await this.send("Page.navigate", { url: "about:blank" });
        const loaded = new Promise((resolve) => {
            this.loaded = resolve;
        });
        await this.send("Page.navigate", { url: address });
        await loaded;
        await this.wait("document.readyState === 'complete' && location.href !== 'about:blank'");
    }

    async evaluate(expression) {
        const { result, exceptionDetails } = await this.send("Runtime.evaluate", { expression, returnByValue: true, awaitPromise: true });
        if (exceptionDetails) {
            throw new Error(exceptionDetails.exception?.description ?? exceptionDetails.text);
        }
        return result.value;
    }

    /** The mouse, with its left button, at a place of the page: pressed, moved or released. */
    mouse(what, x, y) {
        const type = { pressed: "mousePressed", moved: "mouseMoved", released: "mouseReleased" }[what];
        return this.send("Input.dispatchMouseEvent", { type, x, y, button: "left", buttons: 1, clickCount: 1 });
    }

    async press(key, { shift = false, control = false } = {}) {
        // without its text a key presses no button
        const text = key === "Enter" ? { text: "\r" } : key.length === 1 && !control ? { text: key } : {};
        const params = { key, modifiers: (shift ? 8 : 0) + (control ? 2 : 0), windowsVirtualKeyCode: KEYS[key] ?? key.toUpperCase().charCodeAt(0) };
        await this.send("Input.dispatchKeyEvent", { type: "keyDown", ...params, ...text });
        await this.send("Input.dispatchKeyEvent", { type: "keyUp", ...params });
    }

    async drop(file, x = 400, y = 400) {
        const data = { items: [], files: [file], dragOperationsMask: 1 };
        for (const type of ["dragEnter", "dragOver", "drop"]) {
            await this.send("Input.dispatchDragEvent", { type, x, y, data });
        }
    }

    async choose(file, selector = "#file") {
        const { root } = await this.send("DOM.getDocument");
        const { nodeId } = await this.send("DOM.querySelector", { nodeId: root.nodeId, selector });
        await this.send("DOM.setFileInputFiles", { nodeId, files: [file].flat() });
    }

    /**
     * The milliseconds of processor time that the page's thread takes for an expression, and for
     * drawing what follows from it.
     */
    async cost(expression) {
        await this.send("Performance.enable", { timeDomain: "threadTicks" });
        const time = async () => (await this.send("Performance.getMetrics")).metrics.find((it) => it.name === "TaskDuration").value;
        const before = await time();
        await this.evaluate(`${expression}; document.body.getBoundingClientRect(); new Promise((it) => setTimeout(it, 30))`);
        return 1000 * ((await time()) - before);
    }

    /** Has the page think that the system, or the medium, is another one. */
    emulate(features, media = "") {
        return this.send("Emulation.setEmulatedMedia", { media, features: Object.entries(features).map(([name, value]) => ({ name, value })) });
    }

    saveInto(folder) {
        return this.send("Browser.setDownloadBehavior", { behavior: "allow", downloadPath: folder });
    }

    toFront() {
        return this.send("Page.bringToFront");
    }

    /** The page on paper, and the number of its sheets. */
    async paper() {
        const { data } = await this.send("Page.printToPDF", { landscape: true, printBackground: true });
        const bytes = Buffer.from(data, "base64");
        return { bytes, sheets: bytes.toString("latin1").match(/\/Type \/Page\b/g).length };
    }

    /** The controls of these roles that a reader of the page by ear has, with their names. */
    async controls(roles) {
        const { nodes } = await this.send("Accessibility.getFullAXTree");
        const found = nodes.filter((it) => !it.ignored && roles.includes(it.role?.value));
        return found.map((it) => ({ role: it.role.value, name: it.name?.value ?? "" }));
    }

    /** What the page wrote to its console, with its errors. */
    async said() {
        return this.complaints;
    }

    /** The addresses that the page asked for. */
    async asked() {
        return this.addresses;
    }

    async screenshot(file) {
        const { data } = await this.send("Page.captureScreenshot", { format: "png" });
        fs.writeFileSync(file, Buffer.from(data, "base64"));
    }
}

module.exports = { Tab };
