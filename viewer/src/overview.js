// Numbers of every cycle, for an overview of a whole run.
(function (viewer) {
    "use strict";

    /** What is counted, each with its name in words. */
    const SERIES = new Map([
        ["open", "open requests"],
        ["combined", "combinations"],
        ["acts", "memory acts"],
        ["stalled", "stalled PEs"],
    ]);

    class Overview {
        constructor(count) {
            this.count = count;
            /** The requests that were issued and aren't answered, after each cycle. */
            this.open = new Uint16Array(count);
            this.combined = new Uint16Array(count);
            this.acts = new Uint16Array(count);
            this.issued = new Uint16Array(count);
            this.answered = new Uint16Array(count);
            /**
             * The PEs that stalled; a trace alone doesn't say so.
             * @type {Uint16Array | null}
             */
            this.stalled = null;
        }

        /** Notes the numbers of the cycle with this index, from 0 on. */
        note(index, { open, combined, acts, issued, answered }) {
            this.open[index] = open;
            this.combined[index] = combined;
            this.acts[index] = acts;
            this.issued[index] = issued;
            this.answered[index] = answered;
        }

        /** The names of the numbers that are known. */
        get names() {
            return [...SERIES.keys()].filter((it) => this[it] !== null);
        }
    }

    function nameOfSeries(name) {
        return SERIES.get(name);
    }

    /**
     * The numbers of a series in at most so many bins of equally many cycles, as near as can be:
     * the greatest of each bin, and the mean.
     */
    function binsOf(series, most) {
        const count = Math.min(series.length, most);
        const greatest = new Float64Array(count);
        const mean = new Float64Array(count);
        for (let bin = 0; bin < count; bin++) {
            const start = firstOfBin(bin, count, series.length);
            const end = firstOfBin(bin + 1, count, series.length);
            let sum = 0;
            for (let index = start; index < end; index++) {
                sum += series[index];
                greatest[bin] = Math.max(greatest[bin], series[index]);
            }
            mean[bin] = sum / (end - start);
        }
        return { count, greatest, mean };
    }

    /** The index of the first cycle of a bin. */
    function firstOfBin(bin, bins, cycles) {
        return Math.floor((bin * cycles) / bins);
    }

    function greatestOf(series) {
        return series.reduce((most, it) => Math.max(most, it), 0);
    }

    /** How many events of a series there are up to a cycle with this index, and in it. */
    function countUpTo(series, index) {
        let sum = 0;
        for (let at = 0; at <= index; at++) {
            sum += series[at];
        }
        return sum;
    }

    /** The index of the cycle in which the event with this number, from 1 on, is; or null. */
    function indexOfEvent(series, number) {
        let sum = 0;
        for (let index = 0; index < series.length; index++) {
            sum += series[index];
            if (sum >= number) {
                return index;
            }
        }
        return null;
    }

    Object.assign(viewer, { Overview, nameOfSeries, binsOf, greatestOf, countUpTo, indexOfEvent });
})((globalThis.viewer ??= {}));
