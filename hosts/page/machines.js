/**
 * Machines that walk through a run, and copies of them that are kept on the way. Nothing here touches
 * the document.
 * @module
 */

import { Session } from '../js/trac.mjs';

/** For how many milliseconds work goes on before the page may do its other work. */
export const SLICE = 24;

/** Lets the page do its other work. */
export function pause() {
    return new Promise((resolve) => {
        setTimeout(resolve);
    });
}

const MOST_KEPT = 128;
const KEPT_BYTES = 2 ** 27;
const LEAST_APART = 4096;
const MOST_NEAR = 8;
const NEAR_BYTES = 2 ** 23;
// A step over long texts can take a thousand times as long as the one before.
const MOST_AT_ONCE = 1024;
const NOTHING = new Uint8Array(0);
// The neutral string where the idling procedure reads: #(ps,#(rs
const READING = [256, 112, 115, 258, 256, 114, 115];
/** How many steps the idling procedure takes to read: one loads it, one makes each code, and one reads. */
export const STEPS_OF_READING = READING.length + 2;

/**
 * How far a walker has come. What the steps needed since the need was forgotten is in `need`.
 * @typedef {{step: number, consumed: number, printed: number, peak: number, need: number, fate: string}} Progress
 */

/**
 * A machine that makes the steps of a run, over input of which it takes pieces as it wants them.
 */
export class Walker {
    /**
     * @param {Session} session
     * @param {Uint8Array} input
     */
    constructor(session, input) {
        this.session = session;
        this.input = input;
        /** @type {Progress} */
        this.state = { step: 0, consumed: 0, printed: 0, peak: 0, need: 0, fate: 'going' };
        /** Whether the run ends because the idling procedure finds no more input. */
        this.endsIdling = false;
        /** How often it came upon an empty active string on its way to a call. */
        this.emptied = 0;
        /**
         * Called with each text that is printed.
         * @type {(text: Uint8Array) => void}
         */
        this.onPrinted = () => {};
        /**
         * Called with the place of each string that the idling procedure has read.
         * @type {(place: {step: number, from: number, to: number}) => void}
         */
        this.onString = () => {};
    }

    /** Whether the run is over here. */
    get isOver() {
        return this.state.fate !== 'going';
    }

    /**
     * Makes so many steps, or those up to the end of the run.
     * @param {number} most
     */
    advance(most) {
        const goal = this.state.step + most;
        while (this.state.step < goal) {
            this.note(this.session.turn(NOTHING, { most: goal - this.state.step }));
            if (this.state.fate !== 'wants input') return;
            this.read();
        }
    }

    /**
     * Makes steps up to the next one at a right parenthesis, but none behind a goal.
     * @param {number} goal
     * @returns {boolean} whether such a step is the next one; else the same is called again
     */
    comeToCall(goal) {
        const most = Math.min(goal - this.state.step, MOST_AT_ONCE);
        const steps = this.session.stepsToCall(most);
        if (steps) this.advance(steps);
        if (steps === most || this.isOver) return false;
        if (this.session.rule() === 'end of call') return true;
        this.emptied += 1;
        this.advance(1);
        return false;
    }

    /** Makes the step that reads. */
    read() {
        const { consumed } = this.state;
        const idles = this.isIdlingRead();
        for (let size = 4096; ; size *= 8) {
            const piece = this.input.subarray(consumed, consumed + size);
            const ended = consumed + size >= this.input.length;
            this.note(this.session.turn(piece, { ended, most: 1 }));
            if (this.state.fate !== 'wants input') break;
        }
        if (idles && this.state.fate === 'going') {
            this.onString({ step: this.state.step, from: consumed, to: this.state.consumed });
        }
        if (idles && this.state.fate === 'input ended') this.endsIdling = true;
    }

    /** Whether the next step reads a string for the idling procedure. */
    isIdlingRead() {
        if (this.session.rule() !== 'end of call') return false;
        const { neutral } = this.session.parts();
        if (neutral !== READING.length) return false;
        const codes = this.session.neutral();
        return READING.every((code, place) => codes[place] === code);
    }

    /**
     * Takes over what a turn came to.
     * @param {import('../js/trac.mjs').TurnReport} told
     */
    note({ fate, steps, peak, output, consumed }) {
        this.state.step = Number(steps);
        this.state.need = peak;
        this.state.peak = Math.max(this.state.peak, peak);
        this.state.fate = fate;
        this.state.consumed += consumed;
        this.state.printed += output.length;
        if (output.length) this.onPrinted(output);
    }

    /** Forgets what the steps up to here needed, so that the need of the next one is known behind it. */
    forgetNeed() {
        this.session.takePeak();
    }

    /** All that it takes to come back here, and how many bytes that is. */
    save() {
        const machine = this.session.snapshot();
        const bytes = (machine.pages ?? []).reduce((sum, { words }) => sum + words.byteLength, 0);
        return { state: { ...this.state }, machine, bytes };
    }

    /** @param {ReturnType<Walker['save']>} saved */
    restore({ state, machine }) {
        this.session.rewind(machine);
        this.state = { ...state };
    }
}

/** How many steps a machine makes at once, so that it looks at the clock often enough. */
export class Pace {
    constructor() {
        this.steps = MOST_AT_ONCE;
    }

    /**
     * Makes steps up to a goal, or to the end of the run, or until the time is up.
     * @param {Walker} walker
     * @param {number} goal
     * @param {number} until a time of `performance.now`
     */
    advance(walker, goal, until) {
        while (walker.state.step < goal && !walker.isOver && performance.now() < until) {
            const start = performance.now();
            const most = Math.min(this.steps, goal - walker.state.step);
            walker.advance(most);
            this.fit(performance.now() - start, most === this.steps);
        }
    }

    /**
     * @param {number} took milliseconds
     * @param {boolean} isWhole whether as many steps were made as may be
     */
    fit(took, isWhole) {
        if (took > 8) this.steps = Math.max(1, Math.floor(this.steps / 4));
        else if (took < 2 && isWhole) this.steps = Math.min(MOST_AT_ONCE, this.steps * 2);
    }
}

/**
 * Machines that are kept while a run goes on: about as far from each other, and thinned where they
 * become too many.
 */
export class Kept {
    /**
     * @param {ReturnType<Walker['save']>} first the machine at step 0
     * @param {number} cells
     */
    constructor(first, cells) {
        this.all = [first];
        this.bytes = 0;
        this.apart = Math.max(LEAST_APART, Math.ceil(cells / 16));
    }

    /** The step at which the next one is to be kept. */
    get due() {
        return this.all[this.all.length - 1].state.step + this.apart;
    }

    /** @param {ReturnType<Walker['save']>} saved */
    add(saved) {
        this.all.push(saved);
        this.bytes += saved.bytes;
        while ((this.all.length > MOST_KEPT || this.bytes > KEPT_BYTES) && this.all.length > 2) {
            this.thin();
        }
    }

    /** Lets go of each second one. */
    thin() {
        this.all = this.all.filter((_, index) => index % 2 === 0);
        this.bytes = this.all.reduce((sum, { bytes }) => sum + bytes, 0);
        this.apart *= 2;
    }

    /**
     * The last one that isn't behind a step.
     * @param {number} step
     */
    before(step) {
        let [low, high] = [0, this.all.length];
        while (high - low > 1) {
            const middle = (low + high) >> 1;
            if (this.all[middle].state.step <= step) low = middle;
            else high = middle;
        }
        return this.all[low];
    }
}

/** The machines that were kept last on the way to a step, so that those in front of it are near too. */
export class Near {
    constructor() {
        /** @type {ReturnType<Walker['save']>[]} */
        this.all = [];
    }

    /**
     * Keeps a machine, unless it is large.
     * @param {ReturnType<Walker['save']>} saved
     */
    keep(saved) {
        if (saved.bytes > NEAR_BYTES) return;
        this.all.push(saved);
        if (this.all.length > MOST_NEAR) this.all.shift();
    }

    /**
     * The last one that isn't behind a step, or another machine if that is later.
     * @param {number} step
     * @param {ReturnType<Walker['save']>} other
     */
    before(step, other) {
        return this.all.reduce(
            (best, saved) => (saved.state.step <= step && saved.state.step > best.state.step ? saved : best), other);
    }
}
