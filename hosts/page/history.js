/**
 * The steps of one run, and how to go to each of them. A run is completely determined by its script, so a step is
 * reached from the nearest saved machine by making the steps from there again. Nothing here uses the document.
 * @module
 */

import { Session } from '../js/trac.mjs';
import { ACTIVE_CALL, FRONT_OF_LINE, callAhead } from './codes.js';
import { changesForms, learnFunctions } from './functions.js';
import {
    Kept, Near, Pace, SLICE, STEPS_OF_READING, Walker, pause,
} from './machines.js';
import { Origins } from './origins.js';

/** Of how many steps at most the calls are listed. Later ones are looked for when they are wanted. */
export const MOST_LISTED = 5000000;

const NEAREST = 256;
const MOST_PEEKED = 2 ** 20;
const GIVES_VALUES = new Set(['going', 'steps']);

/** A list of growing numbers, in one row of memory. */
class Numbers {
    constructor() {
        this.row = new Float64Array(1024);
        this.length = 0;
    }

    /** @param {number} number */
    push(number) {
        if (this.length === this.row.length) {
            const row = new Float64Array(2 * this.length);
            row.set(this.row);
            this.row = row;
        }
        this.row[this.length] = number;
        this.length += 1;
    }

    /** @param {number} index */
    at(index) {
        return this.row[index];
    }

    /**
     * How many of them are at most this one.
     * @param {number} number
     */
    upTo(number) {
        let [low, high] = [0, this.length];
        while (low < high) {
            const middle = (low + high) >> 1;
            if (this.row[middle] <= number) low = middle + 1;
            else high = middle;
        }
        return low;
    }
}

/** The strings that the idling procedure reads: after which step, and which part of the input. */
class Strings {
    constructor() {
        this.steps = new Numbers();
        this.from = new Numbers();
        this.to = new Numbers();
    }

    /** @param {{step: number, from: number, to: number}} place */
    push({ step, from, to }) {
        this.steps.push(step);
        this.from.push(from);
        this.to.push(to);
    }

    /**
     * The one that is being scanned after a step, or null.
     * @param {number} step
     */
    at(step) {
        const index = this.steps.upTo(step) - 1;
        if (index < 0) return null;
        return {
            step: this.steps.at(index), from: this.from.at(index), to: this.to.at(index),
        };
    }

    /**
     * The step after which the next one is read, or null.
     * @param {number} step
     */
    after(step) {
        const index = this.steps.upTo(step);
        return index < this.steps.length ? this.steps.at(index) : null;
    }
}

/** What was printed up to which step, recorded from time to time. */
class Printings {
    constructor() {
        this.steps = new Numbers();
        this.printed = new Numbers();
    }

    /**
     * @param {number} step
     * @param {number} printed bytes up to there
     */
    note(step, printed) {
        const last = this.printed.length - 1;
        if (last >= 0 && this.printed.at(last) === printed) this.steps.row[last] = step;
        else {
            this.steps.push(step);
            this.printed.push(printed);
        }
    }

    /**
     * The latest known step up to which at most a given number of bytes are printed.
     * @param {number} printed
     */
    before(printed) {
        const count = this.printed.upTo(printed);
        return count ? this.steps.at(count - 1) : 0;
    }
}

/**
 * A call that a step performs.
 * @typedef {object} Call
 * @property {number} mark its mark in the neutral string
 * @property {number} place the place of the mark
 * @property {number} given the number of arguments after the name
 * @property {string[]} words the name of the function, and then the first of its arguments
 * @property {number} active how many characters the active string has
 */

/**
 * A call that was performed, and the forms before, if it may have changed one.
 * @typedef {Call & {forms: import('../js/trac.mjs').StoredForm[] | null}} Performed
 */

/**
 * What a call gave.
 * @typedef {object} Value
 * @property {boolean} isActive whether it is at the front of the active string, to be scanned again
 * @property {number} length
 * @property {Uint32Array} front its codes, as many as a line shows
 * @property {string[]} words the name of the function, and then the first arguments of the call
 */

/**
 * The result of a step.
 * @typedef {object} Outcome
 * @property {string} fate of the run after it
 * @property {Value | null} value
 * @property {Session} session the machine after it, until the result of another step is requested
 */

/** A run of a script, and the step that is looked at. */
export class History {
    /**
     * @param {Uint8Array} input the script and the input after it
     * @param {{cells: number, steps: number}} limits
     * @param {number} cells those of its machines, at most as many as the limit
     */
    static async of(input, limits, cells) {
        const block = { ...limits, cells };
        const walker = async () => new Walker(await Session.open(block), input);
        const isSmall = cells <= MOST_PEEKED;
        const peeker = isSmall ? await walker() : null;
        const shown = await walker();
        learnFunctions(shown.session);
        const made = new History(shown, await walker(), peeker, limits, block);
        if (isSmall) made.origins = new Origins(made, await walker());
        return made;
    }

    /**
     * Use `History.of`.
     * @param {Walker} shown
     * @param {Walker} lister
     * @param {Walker | null} peeker the walker that is one step ahead; none if the block is so large that this takes
     * long
     * @param {{cells: number, steps: number}} limits
     * @param {{cells: number, steps: number}} block the limits of its machines, which may have fewer cells
     */
    constructor(shown, lister, peeker, limits, block) {
        this.shown = shown;
        this.lister = lister;
        this.peeker = peeker;
        this.limits = limits;
        this.block = block;
        /**
         * Where what is scanned was written; null if the block is so large that another machine takes long.
         * @type {Origins | null}
         */
        this.origins = null;
        this.pace = new Pace();
        /** The steps after which a call is performed by the next step, as far as they are listed. */
        this.calls = new Numbers();
        /** Up to which step they are listed. */
        this.listed = 0;
        this.strings = new Strings();
        this.printings = new Printings();
        this.kept = new Kept(shown.save(), block.cells);
        /** After how many steps a run is stopped that nobody asked for. */
        this.most = Infinity;
        this.near = new Near();
        /** @type {Uint8Array[]} */
        this.output = [];
        /** @type {import('./machines.js').Progress} */
        this.end = null;
        /**
         * The call that the last step performed, or null.
         * @type {Performed | null}
         */
        this.performed = null;
        /** The step for which that is known. */
        this.noted = 0;
        /**
         * The forms that were read last, and at which step.
         * @type {{step: number, forms: import('../js/trac.mjs').StoredForm[]} | null}
         */
        this.stored = null;
        shown.onPrinted = (text) => this.end || this.output.push(text);
        shown.onString = (place) => this.end || this.strings.push(place);
    }

    /** Whether the run ended for want of cells though it may have more of them. */
    get lacksCells() {
        return this.end.fate === 'workspace' && this.block.cells < this.limits.cells;
    }

    /** Whether the run was stopped because nobody asked for more of it. */
    get isCut() {
        return this.end.fate === 'going' && this.end.step >= this.most;
    }

    /**
     * Runs to the end, or until it is stopped.
     * @param {AbortSignal} signal
     * @param {(step: number) => void} onStep called with the step from time to time
     */
    async run(signal, onStep) {
        const { shown } = this;
        const isDone = () => shown.isOver || shown.state.step >= this.most;
        while (!signal.aborted && !isDone()) {
            const until = performance.now() + SLICE;
            while (performance.now() < until && !isDone()) this.runSome(until);
            onStep(shown.state.step);
            await pause();
        }
        this.end = { ...shown.state };
    }

    /**
     * Runs up to the next place at which a machine is kept.
     * @param {number} until a time of `performance.now`
     */
    runSome(until) {
        const { shown, kept } = this;
        const { due } = kept;
        this.pace.advance(shown, Math.min(due, this.most), until);
        this.printings.note(shown.state.step, shown.state.printed);
        if (shown.state.step === due && !shown.isOver) kept.add(shown.save());
    }

    /**
     * Lists the calls.
     * @param {AbortSignal} signal
     * @param {() => void} onMore called from time to time when there are more
     */
    async list(signal, onMore) {
        const last = Math.min(this.end.step, MOST_LISTED);
        const pace = new Pace();
        while (!signal.aborted && this.listed < last) {
            const until = performance.now() + SLICE / 2;
            while (this.listed < last && performance.now() < until) {
                const start = performance.now();
                const { steps } = pace;
                this.listSome(Math.min(last, this.listed + steps));
                pace.fit(performance.now() - start, this.listed < last);
            }
            onMore();
            await pause();
        }
        this.lister = null;
    }

    /** @param {number} goal the step up to which calls are listed */
    listSome(goal) {
        const { lister } = this;
        while (lister.state.step < goal) {
            if (!lister.comeToCall(goal)) continue;
            this.calls.push(lister.state.step);
            lister.advance(1);
        }
        this.listed = goal;
    }

    /**
     * Goes on towards a step for some milliseconds at most.
     * @param {number} step
     * @returns {boolean} whether it is reached; else the same is called again, with a pause between
     */
    approach(step) {
        const goal = Math.max(0, Math.min(step, this.end.step));
        const until = performance.now() + SLICE;
        this.comeNear(goal);
        while (this.step < goal) {
            const stop = this.stopBefore(goal);
            if (stop === goal) this.noteNext();
            this.pace.advance(this.shown, stop, until);
            if (this.step < stop) return false;
            if (stop < goal - 1 && this.block.cells <= MOST_PEEKED) this.near.keep(this.shown.save());
        }
        return true;
    }

    /**
     * Restores the nearest machine, unless the steps from this one are fewer.
     * @param {number} goal
     */
    comeNear(goal) {
        if (this.step === goal && this.noted === goal) return;
        const nearest = this.nearest(Math.max(0, goal - 1));
        // a step for which there were too few cells has left its traces in the strings
        const isSpoiled = this.shown.state.fate === 'workspace';
        if (this.step < goal && nearest.state.step <= this.step && !isSpoiled) return;
        this.shown.restore(nearest);
        this.performed = null;
        this.noted = nearest.state.step;
    }

    /**
     * The last machine that is kept and isn't behind a step.
     * @param {number} step
     */
    nearest(step) {
        return this.near.before(step, this.kept.before(step));
    }

    /**
     * Where to stop next on the way to a step: the nearer it is, the shorter the way.
     * @param {number} goal
     */
    stopBefore(goal) {
        const left = goal - this.step;
        if (left === 1) return goal;
        if (left <= NEAREST) return goal - 1;
        let distance = NEAREST;
        while (distance * 4 < left) distance *= 4;
        return goal - distance;
    }

    /**
     * The step behind which the idling procedure has read, or found no more input, where it begins at a step; or null.
     * @param {number} step
     */
    readFrom(step) {
        const read = this.strings.after(step) ?? (this.shown.endsIdling ? this.end.step : null);
        return read === step + STEPS_OF_READING ? read : null;
    }

    /**
     * The step at which the idling procedure began that has read, or found no more input, at a step; or null.
     * @param {number} step
     */
    readUpTo(step) {
        const isEnd = step === this.end.step && this.shown.endsIdling;
        return isEnd || this.strings.at(step)?.step === step ? step - STEPS_OF_READING : null;
    }

    /** The call that the next step performs, or null. */
    coming() {
        const { machine } = this;
        const call = callAhead(machine);
        return call && { ...call, active: machine.parts().active };
    }

    /** Has the need of the next step be known, and notes what that performs, if a call, and the forms it may change. */
    noteNext() {
        this.shown.forgetNeed();
        const call = this.coming();
        const forms = call && changesForms(call.words[0]) ? this.forms() : null;
        this.noted = this.step + 1;
        this.performed = call && { ...call, forms };
    }

    /** The forms at the step that is looked at, read anew only where they may be others than those read last. */
    forms() {
        const { step, stored } = this;
        const isNext = stored?.step === step - 1 && this.noted === step && !this.performed?.forms;
        const isKnown = stored && (stored.step === step || isNext);
        this.stored = { step, forms: isKnown ? stored.forms : this.machine.forms() };
        return this.stored.forms;
    }

    /**
     * What a call gave that the last step of a walker performed, or null where it performed none that is
     * over.
     * @param {Call | null} [call]
     * @param {Walker} [walker]
     * @returns {Value | null}
     */
    value(call = this.performed, walker = this.shown) {
        if (!call || !GIVES_VALUES.has(walker.state.fate)) return null;
        const machine = walker.session;
        const { active, neutral } = machine.parts();
        const grown = active - (call.active - 1);
        const isActive = grown > 0 || call.mark === ACTIVE_CALL;
        return {
            isActive,
            length: isActive ? grown : neutral - call.place,
            front: isActive ? machine.active(Math.min(grown, FRONT_OF_LINE))
                : machine.neutralPart(call.place, FRONT_OF_LINE),
            words: call.words,
        };
    }

    /**
     * What the next step comes to, which performs a call: another machine makes that step. Null where there is no
     * such machine, and where there is no step any more.
     * @returns {Outcome | null}
     */
    comingOutcome() {
        const { peeker, step } = this;
        if (!peeker || step >= this.end.step) return null;
        const isNear = (/** @type {number} */ from) => from <= step + 1 && step - from <= NEAREST;
        if (peeker.isOver || !isNear(peeker.state.step)) {
            const nearest = this.nearest(step);
            peeker.restore(isNear(nearest.state.step) ? nearest : this.shown.save());
        }
        peeker.advance(step + 1 - peeker.state.step);
        const { session, state: { fate } } = peeker;
        return { fate, value: this.value(this.coming(), peeker), session };
    }

    /** How many cells the last step needed, or null where that isn't known. */
    get need() {
        return this.step > 0 && this.noted === this.step ? this.shown.state.need : null;
    }

    /** The step that is looked at: so many steps are done. */
    get step() {
        return this.shown.state.step;
    }

    /** The machine at the step that is looked at. */
    get machine() {
        return this.shown.session;
    }
}
