/**
 * Searches for steps of a run, from the current one. Each search works in slices, and leaves the machine where it
 * stopped; it gives null if there is no such step, or if it was stopped.
 * @module
 */

import { nameAhead } from './codes.js';
import { changedForms } from './forms.js';
import { changesForms } from './functions.js';
import { SLICE, pause } from './machines.js';

/** @typedef {import('./history.js').History} History */

const LEAST_BACK = 256;
const MOST_AT_A_TIME = 2 ** 16;

/**
 * Goes from call to call up to a step.
 * @param {History} history
 * @param {number} to
 * @param {(history: History) => boolean} isWanted called if the next step performs a call
 * @param {AbortSignal} signal
 * @returns {Promise<number | null>} the step after which it was so
 */
async function alongCalls(history, to, isWanted, signal) {
    const { shown } = history;
    while (!signal.aborted && shown.state.step < to) {
        const until = performance.now() + SLICE;
        while (shown.state.step < to && performance.now() < until) {
            if (!shown.comeToCall(to)) continue;
            const { step } = shown.state;
            if (isWanted(history)) return shown.state.step;
            if (shown.state.step === step) shown.advance(1);
        }
        await pause();
    }
    return null;
}

/**
 * The next step after the current one that performs a call.
 * @param {History} history
 * @param {(history: History) => boolean} isWanted
 * @param {AbortSignal} signal
 */
export function nextCall(history, isWanted, signal) {
    if (history.step < history.end.step) history.shown.advance(1);
    return alongCalls(history, history.end.step, isWanted, signal);
}

/**
 * Goes to a step in slices; whether it is reached, and the search wasn't stopped.
 * @param {History} history
 * @param {number} step
 * @param {AbortSignal} signal
 */
async function goTo(history, step, signal) {
    while (!history.approach(step)) {
        await pause();
        if (signal.aborted) return false;
    }
    return true;
}

/**
 * The last step before one that performs a call: the search goes back over more and more steps.
 * @param {History} history
 * @param {number} step
 * @param {AbortSignal} signal
 */
export async function callBefore(history, step, signal) {
    for (let [to, distance] = [step, LEAST_BACK]; to > 0; distance *= 16) {
        const from = Math.max(0, step - distance);
        if (!await goTo(history, from, signal)) return null;
        /** @type {number | null} */
        let last = null;
        await alongCalls(history, to, () => {
            last = history.step;
            return false;
        }, signal);
        if (signal.aborted) return null;
        if (last !== null) return last;
        to = from;
    }
    return null;
}

/**
 * The next call of a function or of any other name.
 * @param {History} history
 * @param {string} name
 * @param {AbortSignal} signal
 */
export function nextNamed(history, name, signal) {
    const wanted = name.toLowerCase();
    return nextCall(history, ({ machine }) => nameAhead(machine)?.toLowerCase() === wanted, signal);
}

/**
 * The end of the call that is the innermost one at a given number of open calls, unless the string ends before.
 * @param {History} history
 * @param {number} depth
 * @param {AbortSignal} signal
 */
async function endAt(history, depth, signal) {
    const { machine, shown } = history;
    const { emptied } = shown;
    if (depth < 1 || machine.rule() === 'idling') return null;
    const found = await nextCall(history, () => shown.emptied > emptied || machine.callCount() <= depth, signal);
    return found !== null && shown.emptied === emptied && machine.callCount() === depth ? found : null;
}

/**
 * The end of the innermost open call, or, if that is the next step, of the call around it.
 * @param {History} history
 * @param {AbortSignal} signal
 */
export function endOfCall(history, signal) {
    const isEnd = history.machine.rule() === 'end of call';
    return endAt(history, history.machine.callCount() - (isEnd ? 1 : 0), signal);
}

/**
 * Whether the next step opens a call.
 * @param {History} history
 */
export function opensCall({ machine }) {
    return ['active call', 'neutral call'].includes(machine.rule());
}

/**
 * The end of the call that the next step opens.
 * @param {History} history
 * @param {AbortSignal} signal
 */
export function endOfOpened(history, signal) {
    return endAt(history, history.machine.callCount() + 1, signal);
}

/**
 * The step by which a form is changed next.
 * @param {History} history
 * @param {AbortSignal} signal
 */
export function nextChange(history, signal) {
    return alongCalls(history, history.end.step, ({ machine, shown }) => {
        if (!changesForms(nameAhead(machine) ?? '')) return false;
        const before = machine.forms();
        shown.advance(1);
        const after = machine.forms();
        return after.length !== before.length || changedForms(before, after).size > 0;
    }, signal);
}

/**
 * The step by which something is printed next.
 * @param {History} history
 * @param {AbortSignal} signal
 */
export async function nextPrinting(history, signal) {
    const { shown, end } = history;
    const { printed } = shown.state;
    if (printed === end.printed) return null;
    const start = history.printings.before(printed);
    if (start > history.step && !await goTo(history, start, signal)) return null;
    for (let most = 1024; !signal.aborted;) {
        const until = performance.now() + SLICE;
        while (performance.now() < until) {
            const before = shown.save();
            shown.advance(Math.min(most, end.step - history.step));
            if (shown.state.printed === printed) most = Math.min(most * 2, MOST_AT_A_TIME);
            else if (most === 1) return history.step;
            else {
                shown.restore(before);
                most /= 2;
            }
        }
        await pause();
    }
    return null;
}
