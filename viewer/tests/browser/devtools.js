// A headless Chromium, driven by its DevTools protocol over a pipe.
"use strict";

const fs = require("node:fs");
const os = require("node:os");
const path = require("node:path");
const { spawn, spawnSync } = require("node:child_process");
const { Tab } = require("./tab.js");

const NAMES = [process.env.CHROMIUM, "chromium", "chromium-browser", "google-chrome"].filter(Boolean);
const SECONDS = 60;

/** The command of an installed Chromium, or null. */
function chromium() {
    return NAMES.find((it) => spawnSync(it, ["--version"], { stdio: "ignore" }).status === 0) ?? null;
}

class Browser {
    constructor(command) {
        this.profile = fs.mkdtempSync(path.join(os.tmpdir(), "viewer-browser-"));
        const words = [
            "--headless=new", "--remote-debugging-pipe", `--user-data-dir=${this.profile}`, "--no-sandbox", "--disable-gpu",
            "--no-first-run", "--disable-extensions", "--disable-background-networking", "--disable-component-update", "--hide-scrollbars", "about:blank",
        ];
        this.process = spawn(command, words, { stdio: ["ignore", "ignore", "ignore", "pipe", "pipe"] });
        this.last = 0;
        this.waiting = new Map();
        this.listeners = [];
        let rest = Buffer.alloc(0);
        this.process.stdio[4].on("data", (chunk) => {
            rest = Buffer.concat([rest, chunk]);
            for (let end = rest.indexOf(0); end >= 0; end = rest.indexOf(0)) {
                this.receive(JSON.parse(rest.subarray(0, end)));
                rest = rest.subarray(end + 1);
            }
        });
    }

    receive(message) {
        const waiting = this.waiting.get(message.id);
        if (waiting) {
            this.waiting.delete(message.id);
            clearTimeout(waiting.timer);
            if (message.error) {
                waiting.reject(new Error(`${waiting.method}: ${message.error.message}`));
            } else {
                waiting.resolve(message.result);
            }
        } else {
            this.listeners.forEach((it) => it(message));
        }
    }

    send(method, params = {}, sessionId = undefined) {
        const id = ++this.last;
        this.process.stdio[3].write(`${JSON.stringify({ id, method, params, sessionId })}\0`);
        return new Promise((resolve, reject) => {
            const timer = setTimeout(() => reject(new Error(`${method}: no answer in ${SECONDS} s`)), SECONDS * 1000);
            this.waiting.set(id, { resolve, reject, method, timer });
        });
    }

    openTab(width, height) {
        return Tab.open(this, width, height);
    }

    async close() {
        const ended = new Promise((resolve) => this.process.once("exit", resolve));
        await this.send("Browser.close").catch(() => this.process.kill());
        await ended;
        fs.rmSync(this.profile, { recursive: true, force: true, maxRetries: 5 });
    }
}

module.exports = { chromium, Browser };
