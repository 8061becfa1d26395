// What the tabs of all browsers have. Each browser's own class evaluates, presses, clicks and draws.
"use strict";

class Page {
    /** Waits until an expression holds. */
    async wait(expression, seconds = 30) {
        const until = Date.now() + seconds * 1000;
        while (!(await this.evaluate(`Boolean(${expression})`))) {
            if (Date.now() > until) {
                throw new Error(`in ${seconds} s it didn't become true: ${expression}`);
            }
            await new Promise((resolve) => setTimeout(resolve, 20));
        }
    }

    text(selector) {
        return this.evaluate(`document.querySelector(${JSON.stringify(selector)}).textContent`);
    }

    texts(selector) {
        return this.evaluate(`[...document.querySelectorAll(${JSON.stringify(selector)})].map((it) => it.textContent)`);
    }

    /** Clicks in the middle of the first element that the expression finds. */
    async clickOn(expression) {
        const { x, y } = await this.evaluate(
            `(() => { const it = ${expression}; it.scrollIntoView({ block: "center", inline: "center" });
            const { left, top, width, height } = it.getBoundingClientRect(); return { x: left + width / 2, y: top + height / 2 }; })()`,
        );
        await this.clickAt(x, y);
    }

    async clickAt(x, y) {
        await this.mouse("pressed", x, y);
        await this.mouse("released", x, y);
    }

    click(selector) {
        return this.clickOn(`document.querySelector(${JSON.stringify(selector)})`);
    }

    /** Sets a field or a choice to a value. */
    enter(selector, value, event = "change") {
        return this.evaluate(`{ const it = document.querySelector(${JSON.stringify(selector)}); it.value = ${JSON.stringify(value)}; it.dispatchEvent(new Event("${event}")); }`);
    }

    /**
     * The milliseconds by the clock that an expression takes, with the layout of what follows from
     * it.
     */
    time(expression) {
        const layout = "document.body.getBoundingClientRect()";
        return this.evaluate(`{ const start = performance.now(); ${expression}; ${layout}; performance.now() - start; }`);
    }
}

module.exports = { Page };
