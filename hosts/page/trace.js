/**
 * The steps of a run as a text, in the lines of trac_trace.
 * @module
 */

import { Session } from '../js/trac.mjs';
import { several } from './codes.js';
import { SLICE, pause } from './machines.js';

const MOST_TRACED = 20000;
const MOST_LETTERS = 2 ** 24;

/**
 * Makes a step of a trace: of the input, which is copied, it is given as much as it wants.
 * @param {import('../js/trac.mjs').Trace} trace
 * @param {Uint8Array} input what isn't read yet
 */
function tracedStep(trace, input) {
    let told = trace.step();
    for (let size = 4096; told.fate === 'wants input'; size *= 8) {
        told = trace.step(input.subarray(0, size), { ended: size >= input.length });
    }
    return told;
}

/**
 * The lines of a run, from its first step on, up to a limit for a file.
 * @param {Uint8Array} input
 * @param {{cells: number, steps: number}} limits
 * @param {import('./machines.js').Progress} end the point where the run ended, or was stopped
 */
export async function traceOf(input, limits, { step: last, fate: end }) {
    const session = await Session.open(limits);
    const trace = session.trace({ width: 0 });
    const lines = [];
    const most = Math.min(last, MOST_TRACED);
    let [step, from, letters, fate] = [0, 0, 0, 'going'];
    // behind its last step a run tells how it ended, unless it was stopped there
    const hasMore = () => step < most || (step === last && end !== 'going');
    let until = performance.now() + SLICE;
    while (fate === 'going' && hasMore() && letters < MOST_LETTERS) {
        const told = tracedStep(trace, input.subarray(from));
        lines.push(told.lines);
        letters += told.lines.length;
        from += told.consumed;
        [step, fate] = [Number(told.steps), told.fate];
        if (performance.now() > until) {
            await pause();
            until = performance.now() + SLICE;
        }
    }
    const left = last - step;
    return lines.join('') + (left > 0 ? `.. ${several(left, 'more step')}; trac_trace writes all steps\n` : '');
}
