// Routes of an Omega network: which positions a request and its reply take.
(function (viewer) {
    "use strict";

    const MOST_STAGES = 6;

    class Net {
        constructor(stages) {
            this.stages = stages;
            this.size = 1 << stages;
        }

        shuffle(x) {
            return ((x << 1) & (this.size - 1)) | (x >> (this.stages - 1));
        }

        unshuffle(x) {
            return (x >> 1) | ((x & 1) << (this.stages - 1));
        }

        module(cell) {
            return cell % this.size;
        }

        /** The line of a request before the stage: at 0 its PE, after the last stage its module. */
        line(stage, pe, module) {
            const rest = this.stages - stage;
            return ((pe & ((1 << rest) - 1)) << stage) | (module >> rest);
        }

        /**
         * The PE-side position at which a request enters the stage, and at which its reply leaves
         * it.
         */
        entry(stage, pe, module) {
            return this.shuffle(this.line(stage, pe, module));
        }

        /** The port by which a request to the module leaves a switch of the stage. */
        requestPort(stage, module) {
            return (module >> (this.stages - 1 - stage)) & 1;
        }

        /** The port by which a reply to the PE leaves a switch of the stage. */
        replyPort(stage, pe) {
            return (pe >> (this.stages - 1 - stage)) & 1;
        }
    }

    Object.assign(viewer, { MOST_STAGES, Net });
})((globalThis.viewer ??= {}));
