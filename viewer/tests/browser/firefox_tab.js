// A tab of Firefox: what a person does in it, and what can be seen there.
"use strict";

const fs = require("node:fs");
const path = require("node:path");
const zlib = require("node:zlib");
const { Page } = require("./page.js");

// WebDriver's names of keys
const KEYS = { ArrowRight: "\uE014", ArrowLeft: "\uE012", ArrowUp: "\uE013", ArrowDown: "\uE015", Enter: "\uE007", Home: "\uE011", End: "\uE010", Escape: "\uE00C", Tab: "\uE004" };
const [SHIFT, CONTROL] = ["\uE008", "\uE009"];
const ROLES = { button: "button", "input[type=range]": "slider", "input[type=number]": "spinbutton", select: "combobox", "input[type=checkbox]": "checkbox" };

/** A text of PDF with its streams unpacked, in which Firefox has what describes the sheets. */
function unpacked(bytes) {
    const parts = bytes.toString("latin1").split(/stream\r?\n/);
    return parts.map((it) => {
        try {
            return zlib.inflateSync(Buffer.from(it, "latin1"), { finishFlush: zlib.constants.Z_SYNC_FLUSH }).toString("latin1");
        } catch {
            return it;
        }
    }).join("\n");
}

class FirefoxTab extends Page {
    constructor(browser, handle) {
        super();
        this.browser = browser;
        this.handle = handle;
    }

    static async open(browser, width = 1280, height = 800) {
        const { handle } = await browser.send("WebDriver:NewWindow", { type: "tab" });
        const tab = new FirefoxTab(browser, handle);
        await tab.chrome("Services.console.reset()");
        await tab.resize(width, height);
        return tab;
    }

    /** Sends a command to this tab, which is first brought to the front. */
    async send(method, params = {}) {
        if (this.browser.front !== this.handle) {
            await this.browser.send("WebDriver:SwitchToWindow", { handle: this.handle, focus: true });
            this.browser.front = this.handle;
        }
        return this.browser.send(method, params);
    }

    /** Evaluates an expression in the browser itself, where `gBrowser` has this tab in front. */
    async chrome(expression) {
        await this.send("Marionette:SetContext", { value: "chrome" });
        try {
            const script = `const done = arguments[0], { gBrowser } = Services.wm.getMostRecentWindow("navigator:browser");
                Promise.resolve(${expression}).then((it) => done(JSON.stringify(it ?? null)));`;
            return JSON.parse((await this.browser.send("WebDriver:ExecuteAsyncScript", { script, args: [] })).value);
        } finally {
            await this.browser.send("Marionette:SetContext", { value: "content" });
        }
    }

    /** Gives the page this size, which may be less than the least of a window. */
    async resize(width, height) {
        await this.chrome(`(() => {
            const style = gBrowser.selectedBrowser.style;
            for (const [name, size] of [["width", ${width}], ["height", ${height}]]) {
                for (const it of [name, "min-" + name, "max-" + name]) style.setProperty(it, size + "px");
            }
        })()`);
        await this.wait(`innerWidth === ${width} && innerHeight === ${height}`);
    }

    async goTo(address) {
        // a change of the fragment alone would load nothing
        await this.send("WebDriver:Navigate", { url: "about:blank" });
        this.address = address;
        await this.send("WebDriver:Navigate", { url: address });
    }

    async evaluate(expression) {
        const script = `const done = arguments[1]; Promise.resolve().then(() => (0, eval)(arguments[0]))
            .then((it) => done({ text: JSON.stringify(it) }), (fault) => done({ fault: String(fault?.stack ? fault + "\\n" + fault.stack : fault) }));`;
        const { value } = await this.send("WebDriver:ExecuteAsyncScript", { script, args: [expression], scriptTimeout: 120_000 });
        if (value.fault) {
            throw new Error(value.fault);
        }
        return value.text === undefined || value.text === null ? undefined : JSON.parse(value.text);
    }

    act(type, actions, parameters) {
        const device = parameters ? { parameters } : {};
        return this.send("WebDriver:PerformActions", { actions: [{ type, id: type, ...device, actions }] });
    }

    /** The mouse, with its left button, at a place of the page: pressed, moved or released. */
    mouse(what, x, y) {
        const move = { type: "pointerMove", x: Math.round(x), y: Math.round(y), duration: 0 };
        const acts = { pressed: [move, { type: "pointerDown", button: 0 }], moved: [move], released: [move, { type: "pointerUp", button: 0 }] };
        return this.act("pointer", acts[what], { pointerType: "mouse" });
    }

    press(key, { shift = false, control = false } = {}) {
        const held = [...(shift ? [SHIFT] : []), ...(control ? [CONTROL] : [])];
        const value = KEYS[key] ?? (shift ? key.toUpperCase() : key);
        const [down, up] = ["keyDown", "keyUp"].map((type) => held.map((it) => ({ type, value: it })));
        return this.act("key", [...down, { type: "keyDown", value }, { type: "keyUp", value }, ...up.reverse()]);
    }

    /** Firefox lets no file be dropped from outside, so the page gets one with the same name and text. */
    drop(file) {
        const text = JSON.stringify(fs.readFileSync(file, "utf8"));
        return this.evaluate(`{
            const dataTransfer = new DataTransfer();
            dataTransfer.items.add(new File([${text}], ${JSON.stringify(path.basename(file))}));
            for (const type of ["dragenter", "dragover", "drop"]) document.body.dispatchEvent(new DragEvent(type, { dataTransfer, bubbles: true, cancelable: true }));
        }`);
    }

    async choose(file, selector = "#file") {
        const { value } = await this.send("WebDriver:FindElement", { using: "css selector", value: selector });
        await this.send("WebDriver:ElementSendKeys", { id: Object.values(value)[0], text: [file].flat().join("\n") });
    }

    /**
     * The milliseconds of processor time that the page's thread takes for an expression, and for
     * drawing what follows from it.
     */
    async cost(expression) {
        const pid = "gBrowser.selectedBrowser.browsingContext.currentWindowGlobal.osPid";
        const time = () => this.chrome(`ChromeUtils.requestProcInfo().then((it) => it.children.find((one) => one.pid === ${pid}).threads.find((one) => one.tid === ${pid}).cpuTime)`);
        const before = await time();
        await this.evaluate(`${expression}; document.body.getBoundingClientRect(); new Promise((it) => setTimeout(it, 30))`);
        return ((await time()) - before) / 1e6;
    }

    /** Has the page think that the system, or the medium, is another one. */
    emulate(features, media = "") {
        const scheme = features["prefers-color-scheme"] ?? "none";
        return this.chrome(`Object.assign(gBrowser.selectedBrowser.browsingContext, { prefersColorSchemeOverride: "${scheme}", mediumOverride: "${media}" }) && null`);
    }

    saveInto(folder) {
        return this.chrome(`Services.prefs.setStringPref("browser.download.dir", ${JSON.stringify(folder)})`);
    }

    toFront() {
        return this.send("WebDriver:GetWindowHandle");
    }

    /** The page on paper, and the number of its sheets. */
    async paper() {
        const { value } = await this.send("WebDriver:Print", { orientation: "landscape", background: true });
        const bytes = Buffer.from(value, "base64");
        return { bytes, sheets: unpacked(bytes).match(/\/Type \/Page\b/g).length };
    }

    /** The controls of these roles that are shown, with the names that the browser gives them. */
    async controls(roles) {
        const found = [];
        for (const [selector, role] of Object.entries(ROLES).filter(([, it]) => roles.includes(it))) {
            for (const it of await this.send("WebDriver:FindElements", { using: "css selector", value: selector })) {
                const id = Object.values(it)[0];
                if ((await this.send("WebDriver:IsElementDisplayed", { id })).value) {
                    found.push({ role, name: (await this.send("WebDriver:GetComputedLabel", { id })).value });
                }
            }
        }
        return found;
    }

    /** What the page wrote to its console, with its errors. */
    async said() {
        const own = JSON.stringify(this.address.replace(/[^/]*$/, ""));
        return this.chrome(`[
            ...Services.console.getMessageArray().filter((it) => it instanceof Ci.nsIScriptError && it.sourceName.startsWith(${own}) && !(it.flags & Ci.nsIScriptError.infoFlag)).map((it) => it.errorMessage),
            ...Cc["@mozilla.org/consoleAPI-storage;1"].getService(Ci.nsIConsoleAPIStorage).getEvents().filter((it) => it.filename.startsWith(${own})).map((it) => it.arguments.join(" ")),
        ]`);
    }

    /** The addresses that the page asked for. */
    async asked() {
        return [this.address.split("#")[0], ...(await this.evaluate("performance.getEntriesByType('resource').map((it) => it.name)"))];
    }

    async screenshot(file) {
        const { value } = await this.send("WebDriver:TakeScreenshot", { full: false });
        fs.writeFileSync(file, Buffer.from(value, "base64"));
    }
}

module.exports = { FirefoxTab };
