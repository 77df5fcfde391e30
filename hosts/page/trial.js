/**
 * Checks the script of an exercise as `examples/exercises/check` does: with other inputs, with other texts in it, and
 * whether it makes the output in the way that the exercise asks for. Nothing here uses the document.
 * @module
 */

import { Session } from '../js/trac.mjs';
import { bytesOfText } from './boxes.js';
import { plainText } from './codes.js';
import {
    Pace, SLICE, Walker, pause,
} from './machines.js';

/** What a script may print, in bytes. */
const MOST_PRINTED = 1000000;
/** From this exercise on the input begins on a new line; `examples/exercises/check` has the same number. */
const FIRST_OF_LINES = 17;
const GOOD_ENDS = new Set(['halted', 'input ended']);

/**
 * The result of a case or a test that the script fails: the message, the input, the output and the wanted output, each
 * if it applies.
 * @typedef {{says: string, input?: string, output?: string, wanted?: string}} Failure
 */

/**
 * An output without line feeds at its end, which have no meaning.
 * @param {string} text
 */
export function withoutEnd(text) {
    return text.replace(/\n+$/, '');
}

/**
 * Whether a run that ended so has ended well.
 * @param {string} fate
 */
export function endsWell(fate) {
    return GOOD_ENDS.has(fate);
}

/**
 * A text with another in the place of each of its parts that are a third, in letters of any case; or of the first.
 * @param {string} text
 * @param {string[]} swap the part, and what comes in its place
 * @param {boolean} [isFirst]
 */
function swapped(text, [part, other], isFirst = false) {
    const literal = new RegExp(part.replace(/[\\^$.*+?()[\]{}|]/g, '\\$&'), isFirst ? 'i' : 'gi');
    return text.replace(literal, () => other);
}

/**
 * Runs a script in slices, with the limits of the program, and gives what it printed and how it ended.
 * @param {string} script
 * @param {AbortSignal} signal
 */
async function outcome(script, signal) {
    const walker = new Walker(await Session.open(), bytesOfText(script));
    const pace = new Pace();
    /** @type {string[]} */
    const printed = [];
    walker.onPrinted = (text) => printed.push(plainText(text));
    while (!walker.isOver && !signal.aborted && walker.state.printed < MOST_PRINTED) {
        pace.advance(walker, Infinity, performance.now() + SLICE);
        await pause();
    }
    return { output: printed.join(''), isGood: endsWell(walker.state.fate) };
}

/** The trial of one script. */
export class Trial {
    /**
     * @param {import('./exercises.js').Exercise} exercise
     * @param {string} script the content of the script's box
     * @param {AbortSignal} signal
     */
    constructor(exercise, script, signal) {
        this.exercise = exercise;
        this.signal = signal;
        const end = parseInt(exercise.name, 10) < FIRST_OF_LINES ? '' : '\n';
        this.script = withoutEnd(script) + end;
    }

    /**
     * The first failure, or null if there is none or the trial is stopped.
     * @returns {Promise<Failure | null>}
     */
    async failure() {
        for (const each of this.exercise.cases) {
            const failed = await this.ofCase(each);
            if (failed || this.signal.aborted) return failed;
        }
        return await this.withoutCalls() ?? this.ofConstant();
    }

    /**
     * @param {import('./exercises.js').Case} one
     * @returns {Promise<Failure | null>}
     */
    async ofCase({ input, swap, output: wanted }) {
        const script = swap ? swapped(this.script, swap) : this.script + (input ?? '');
        const { output, isGood } = await outcome(script, this.signal);
        if (isGood && withoutEnd(output) === withoutEnd(wanted)) return null;
        const says = swap ? `with “${swap[1]}” for each “${swap[0]}” in the script` : 'with another input';
        return { says: `Not yet ${says}.`, input, output, wanted };
    }

    /**
     * Whether a script prints a text, and ends well.
     * @param {string} script
     * @param {string} wanted
     */
    async prints(script, wanted) {
        const { output, isGood } = await outcome(script, this.signal);
        return isGood && withoutEnd(output) === withoutEnd(wanted);
    }

    /** @returns {Promise<Failure | null>} a failure if the calls that the exercise is about make no difference */
    async withoutCalls() {
        const { needs, output } = this.exercise;
        if (!needs) return null;
        const script = swapped(this.script, [`#(${needs[0]},`, '#(,']);
        if (!await this.prints(script, output)) return null;
        return { says: `Not yet: this prints the right text also without its calls of ${needs[0]}.` };
    }

    /** @returns {Promise<Failure | null>} a failure if the script contains the text that it should make */
    async ofConstant() {
        const { constant, output } = this.exercise;
        if (!constant) return null;
        const wanted = swapped(output, constant, true);
        if (!await this.prints(swapped(this.script, constant, true), wanted)) return null;
        return { says: 'Not yet: this prints the right text, but it holds all of that text.' };
    }
}
