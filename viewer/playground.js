// The playground of viewer/serve: fields for settings and a program, and a button that runs them.
// Only the page that is served has this script: no other page asks anybody for anything.
(function (viewer) {
    "use strict";

    const { html, saveFile } = viewer;
    const data = JSON.parse(document.getElementById("playground-data").textContent);

    /** A field for a text, with the numbers of its lines, of which one can be marked. */
    class Editor {
        constructor(id, name) {
            this.lines = html("pre", { class: "line-numbers", "aria-hidden": "true" });
            this.field = html("textarea", { id, spellcheck: "false", autocapitalize: "off", wrap: "off" });
            const label = html("label", { for: id }, name);
            this.element = html("div", { class: "editor" }, label, html("div", {}, this.lines, this.field));
            this.field.addEventListener("input", () => this.mark(null));
            this.field.addEventListener("scroll", () => (this.lines.scrollTop = this.field.scrollTop));
        }

        get text() {
            return this.field.value;
        }

        set text(text) {
            this.field.value = text;
            this.mark(null);
        }

        /** Numbers the lines, and marks the one with a fault, if there is one, and goes there. */
        mark(line) {
            const count = this.text.split("\n").length;
            const numbers = Array.from({ length: count }, (_, index) => {
                const text = `${index + 1}\n`;
                return index + 1 === line ? html("mark", {}, text) : text;
            });
            this.lines.replaceChildren(...numbers);
            this.field.setAttribute("aria-invalid", `${line !== null}`);
            if (line !== null) {
                const before = this.text.split("\n").slice(0, line - 1);
                const start = before.join("\n").length + (line > 1 ? 1 : 0);
                this.field.focus();
                this.field.setSelectionRange(start, start + (this.text.split("\n")[line - 1] ?? "").length);
            }
        }
    }

    class Playground {
        constructor(app) {
            this.app = app;
            this.settings = new Editor("settings", "Settings");
            this.program = new Editor("program", "Program");
            this.examples = html("select", { id: "examples" }, ...Object.keys(data.examples).map((it) => html("option", { value: it }, it)));
            this.button = html("button", { type: "button", id: "run", title: "Run the program (Ctrl+Enter)" }, "Run");
            this.share = html("button", { type: "button", id: "share", title: "Save this page with its trace as a file" }, "Save the page");
            this.said = html("p", { id: "run-said", role: "alert", hidden: true });
            this.number = 0;
            this.build();
            this.connect();
        }

        build() {
            const choice = html("label", {}, "Example ", this.examples);
            const bar = html("div", { class: "bar" }, choice, this.button, this.share, this.said);
            const fields = html("div", { class: "editors" }, this.settings.element, this.program.element);
            this.element = html("details", { id: "playground", open: true }, html("summary", {}, "Settings and program"), bar, fields);
            document.querySelector("header").after(this.element);
            document.getElementById("welcome").classList.add("absent");
        }

        connect() {
            this.examples.addEventListener("change", () => this.startFrom(this.examples.value));
            this.button.addEventListener("click", () => this.run());
            this.share.addEventListener("click", () => this.save());
            this.element.addEventListener("keydown", (event) => {
                if (event.key === "Enter" && event.ctrlKey) {
                    this.run();
                }
            });
        }

        startFrom(name) {
            this.examples.value = name;
            this.settings.text = data.examples[name].settings;
            this.program.text = data.examples[name].program;
            return this.run();
        }

        say(text) {
            this.said.hidden = text === "";
            this.said.textContent = text;
        }

        /** Sends something to the server, and answers what it says; or null, and says why. */
        async ask(path, sent) {
            try {
                const answer = await fetch(path, { method: "POST", body: JSON.stringify(sent) });
                if (answer.ok) {
                    return answer;
                }
                this.say(answer.status === 413 ? "This is too long to be run here." : "The server refuses this.");
            } catch {
                this.say("The server doesn't answer. Start viewer/serve again, and open the address that it prints.");
            }
            return null;
        }

        /** Runs the program. What was asked for before, and is answered later, isn't shown. */
        async run() {
            const number = ++this.number;
            const texts = { settings: this.settings.text, program: this.program.text };
            this.say("Running …");
            const answer = await this.ask("run", texts);
            const found = await answer?.json();
            if (!found || number !== this.number) {
                return;
            }
            this.say("");
            if (found.fault) {
                this.showFault(found.fault);
            } else {
                this.show({ ...texts, ...found });
            }
        }

        /** Says what is wrong, and marks its line. */
        showFault({ message, file, line }) {
            const where = file ? `${file === "settings" ? "Settings" : "Program"}${line ? `, line ${line}` : ""}: ` : "";
            this.say(`${where}${message}.`);
            this[file]?.mark(line);
        }

        show({ trace, steps, settings, program }) {
            this.settings.mark(null);
            this.program.mark(null);
            this.texts = Object.entries({ run: trace, settings, program, steps }).filter(([, text]) => text !== null);
            this.app.openFiles(this.texts.map(([name, text]) => ({ name, bytes: new TextEncoder().encode(text) })));
        }

        /** Saves the page as a file that needs no server, with what was run last. */
        async save() {
            const answer = this.texts && (await this.ask("page", { texts: this.texts }));
            if (answer) {
                saveFile("run.html", await answer.blob());
            }
        }
    }

    const playground = new Playground(viewer.app);
    Object.assign(viewer, { playground });
    playground.startFrom(data.first in data.examples ? data.first : Object.keys(data.examples)[0]);
})(globalThis.viewer);
