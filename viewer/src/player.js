// Steps through the cycles at a chosen speed.
(function (viewer) {
    "use strict";

    class Player {
        /**
         * `step` goes a cycle forward, and answers whether there was one. Each start and stop calls
         * `onChange`.
         */
        constructor(step, onChange) {
            this.step = step;
            this.onChange = onChange;
            this.cyclesPerSecond = 1;
            this.timer = null;
        }

        get isPlaying() {
            return this.timer !== null;
        }

        toggle() {
            if (this.isPlaying) {
                this.stop();
            } else {
                this.start();
            }
        }

        start() {
            this.stop();
            const tick = () => {
                const isStep = this.step();
                // a step that finds a fault closes the trace, which stops the player
                if (!this.isPlaying) {
                    return;
                }
                if (isStep) {
                    this.timer = setTimeout(tick, 1000 / this.cyclesPerSecond);
                } else {
                    this.stop();
                }
            };
            this.timer = setTimeout(tick, 0);
            this.onChange();
        }

        stop() {
            clearTimeout(this.timer);
            this.timer = null;
            this.onChange();
        }
    }

    Object.assign(viewer, { Player });
})((globalThis.viewer ??= {}));
