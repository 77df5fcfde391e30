/**
 * Waits for a rest in typing.
 * @module
 */

/** For how many milliseconds nothing is typed then. */
const STILL = 300;
/** How many steps a script makes at most that is run while one types. */
export const MOST_LIVE = 100000;

/** What to do when the user pauses while typing. */
export class Live {
    /** @param {(signal: AbortSignal) => void} onStill called then; the signal is aborted when more is typed */
    constructor(onStill) {
        this.onStill = onStill;
        this.leaving = new AbortController();
        /** @type {number | undefined} */
        this.timer = undefined;
    }

    /** Takes note that something is typed. */
    typed() {
        this.stop();
        this.timer = window.setTimeout(() => this.onStill(this.leaving.signal), STILL);
    }

    /** Stops what waits and what goes on. */
    stop() {
        window.clearTimeout(this.timer);
        this.leaving.abort();
        this.leaving = new AbortController();
    }
}
