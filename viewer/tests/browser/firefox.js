// A headless Firefox, driven by its Marionette protocol over a connection of this machine.
"use strict";

const fs = require("node:fs");
const net = require("node:net");
const os = require("node:os");
const path = require("node:path");
const { spawn, spawnSync } = require("node:child_process");
const { FirefoxTab } = require("./firefox_tab.js");

const NAMES = [process.env.FIREFOX, "firefox-esr", "firefox"].filter(Boolean);
const SECONDS = 120;
// the port is one that is free; nothing is fetched, files are saved without a question, and scrollbars take no room
const PREFERENCES = {
    "marionette.port": 0,
    "app.update.disabledForTesting": true,
    "browser.download.folderList": 2,
    "browser.download.useDownloadDir": true,
    "datareporting.policy.dataSubmissionEnabled": false,
    "network.captive-portal-service.enabled": false,
    "network.connectivity-service.enabled": false,
    "services.settings.server": "data:,#remote-settings-dummy/v1",
    "ui.useOverlayScrollbars": 1,
    "widget.gtk.overlay-scrollbars.enabled": true,
};

/** The command of an installed Firefox, or null. */
function firefox() {
    return NAMES.find((it) => spawnSync(it, ["--version"], { stdio: "ignore" }).status === 0) ?? null;
}

class Firefox {
    constructor(command) {
        this.profile = fs.mkdtempSync(path.join(os.tmpdir(), "viewer-firefox-"));
        const lines = Object.entries(PREFERENCES).map(([name, value]) => `user_pref("${name}", ${JSON.stringify(value)});\n`);
        fs.writeFileSync(path.join(this.profile, "user.js"), lines.join(""));
        const words = ["--headless", "--marionette", "--remote-allow-system-access", "--no-remote", "--profile", this.profile, "about:blank"];
        this.process = spawn(command, words, { stdio: "ignore" });
        this.last = 0;
        this.waiting = new Map();
    }

    /** Waits for the port that Firefox writes into its profile, and greets it. */
    async start() {
        const file = path.join(this.profile, "MarionetteActivePort");
        for (const end = Date.now() + SECONDS * 1000; !fs.existsSync(file) || !fs.readFileSync(file, "utf8"); ) {
            if (Date.now() > end || this.process.exitCode !== null) {
                throw new Error("Firefox doesn't open its port");
            }
            await new Promise((resolve) => setTimeout(resolve, 50));
        }
        this.socket = net.connect(Number(fs.readFileSync(file, "utf8")), "127.0.0.1");
        await new Promise((resolve) => this.socket.once("connect", resolve));
        this.listen();
        await this.send("WebDriver:NewSession", { capabilities: { alwaysMatch: {} } });
        return this;
    }

    /** Each message is the number of its bytes, a colon and JSON. The first one names the protocol. */
    listen() {
        let rest = Buffer.alloc(0);
        this.socket.on("data", (chunk) => {
            rest = Buffer.concat([rest, chunk]);
            for (let colon = rest.indexOf(":"); colon >= 0; colon = rest.indexOf(":")) {
                const size = Number(rest.subarray(0, colon));
                if (rest.length < colon + 1 + size) {
                    return;
                }
                this.receive(JSON.parse(rest.subarray(colon + 1, colon + 1 + size)));
                rest = rest.subarray(colon + 1 + size);
            }
        });
    }

    receive(message) {
        if (!Array.isArray(message)) {
            return;
        }
        const [, id, error, result] = message;
        const { resolve, reject, method, timer } = this.waiting.get(id);
        this.waiting.delete(id);
        clearTimeout(timer);
        if (error) {
            reject(new Error(`${method}: ${error.message}`));
        } else {
            resolve(result);
        }
    }

    send(method, params = {}) {
        const id = ++this.last;
        const text = Buffer.from(JSON.stringify([0, id, method, params]));
        this.socket.write(Buffer.concat([Buffer.from(`${text.length}:`), text]));
        return new Promise((resolve, reject) => {
            const timer = setTimeout(() => reject(new Error(`${method}: no answer in ${SECONDS} s`)), SECONDS * 1000);
            this.waiting.set(id, { resolve, reject, method, timer });
        });
    }

    openTab(width, height) {
        return FirefoxTab.open(this, width, height);
    }

    async close() {
        const ended = new Promise((resolve) => this.process.once("exit", resolve));
        if (this.socket) {
            await this.send("Marionette:Quit", { flags: ["eForceQuit"] }).catch(() => this.process.kill());
        } else {
            this.process.kill();
        }
        await ended;
        this.socket?.destroy();
        fs.rmSync(this.profile, { recursive: true, force: true, maxRetries: 5 });
    }
}

module.exports = { firefox, Firefox };
