/**
 * Runs that were made: what they printed, how they ended, and what was done in them up to a step.
 * @module
 */

import { bytesOfText, joinedRows, textOfBytes } from './boxes.js';
import { counted, isSameRow, several } from './codes.js';
import { changedForms } from './forms.js';
import { History } from './history.js';
import { pause } from './machines.js';

const FIRST_CELLS = 65536;
const MORE_CELLS = 4;

/** @type {Record<string, (limits: {cells: number, steps: number}) => string>} */
const FATES = {
    halted: () => 'Ended: the script called hl.',
    'input ended': () => 'Ended: all input is read.',
    workspace: ({ cells }) => `Workspace full: the next step needs more than the ${
        several(cells, 'cell')} there are.`,
    steps: ({ steps }) => `Allowance used up: the script goes on after ${several(steps, 'step')}.`,
    going: () => 'Stopped by you.',
};

/**
 * A run that was made.
 * @typedef {object} Run
 * @property {History} history
 * @property {{script: string, input: string}} texts those of the boxes
 * @property {Uint8Array} input
 * @property {Uint8Array} output
 */

/**
 * What has been done in a run up to the step that is looked at.
 * @typedef {{scanned: Uint32Array, forms: import('../js/trac.mjs').StoredForm[], printed: Uint8Array}} Done
 */

/**
 * The part of the texts with the string that is scanned at a step, without the layout before it.
 * @param {Run} run
 * @param {number} step
 */
export function stringPart({ history, input }, step) {
    const part = history.strings.at(step);
    if (!part) return null;
    let { from } = part;
    while (from < part.to && [9, 10, 13].includes(input[from])) from += 1;
    const before = (/** @type {number} */ place) => textOfBytes(input.subarray(0, place)).length;
    return { from: before(from), to: before(part.to) };
}

/**
 * A place in the texts, in words.
 * @param {{script: string, input: string}} texts
 * @param {number} place in the script and the further input after it
 */
export function placeWords({ script, input }, place) {
    const isInScript = place < script.length;
    const front = (script + input).slice(isInScript ? 0 : script.length, place);
    const line = front.split('\n').length;
    const column = [...front.slice(front.lastIndexOf('\n') + 1)].length + 1;
    return `line ${counted(line)}, column ${counted(column)}${isInScript ? '' : ' of the further input'}`;
}

/**
 * The beginning of the string that was being scanned when a run ended, in words.
 * @param {Run} run
 */
export function stringWords(run) {
    const part = stringPart(run, run.history.end.step);
    return part ? `The string that was being scanned begins in ${placeWords(run.texts, part.from)}.` : '';
}

/**
 * Runs texts, to the end or until the run is stopped. A run that ends in few cells ends the same way in more of them, so
 * its machines have few at first; only a run for which these don't suffice is made again with more.
 * @param {{script: string, input: string}} texts
 * @param {{cells: number, steps: number}} limits
 * @param {AbortSignal} signal
 * @param {number} most after how many steps it is stopped
 * @param {(step: number) => void} [onStep] called with the step from time to time
 * @returns {Promise<Run>}
 */
export async function makeRun(texts, limits, signal, most, onStep = () => {}) {
    const input = bytesOfText(texts.script + texts.input);
    let history;
    for (let cells = FIRST_CELLS; !history || history.lacksCells; cells *= MORE_CELLS) {
        history = await History.of(input, limits, Math.min(cells, limits.cells));
        history.most = most;
        await history.run(signal, onStep);
    }
    const output = joinedRows(history.output);
    history.output = [];
    return { history, texts, input, output };
}

/**
 * How a run ended, in words.
 * @param {History} history
 */
export function fateWords(history) {
    if (history.isCut) return 'Stopped: a link alone runs no further. Run makes all steps.';
    return FATES[history.end.fate](history.limits);
}

/**
 * How much a run did, in words.
 * @param {Run} run
 */
export function amountWords({ history: { end }, input }) {
    return `${several(end.step, 'step')}, peak ${several(end.peak, 'cell')}, ${
        counted(end.consumed)} of ${several(input.length, 'byte')} read`;
}

/**
 * @param {Run} run
 * @returns {Done}
 */
export function doneIn({ history, output }) {
    return {
        scanned: history.machine.neutral(),
        forms: history.forms(),
        printed: output.subarray(0, history.shown.state.printed),
    };
}

/**
 * A step, if the same was done up to it in two runs; otherwise null.
 * @param {number} step
 * @param {Done} done in the other one
 * @param {Run} run which goes to that step
 * @param {AbortSignal} signal
 */
export async function sameStep(step, done, run, signal) {
    const { history } = run;
    if (step > history.end.step) return null;
    while (!history.approach(step)) {
        await pause();
        if (signal.aborted) return null;
    }
    const { scanned, forms, printed } = doneIn(run);
    const isSame = isSameRow(done.scanned, scanned) && isSameRow(done.printed, printed)
        && done.forms.length === forms.length && !changedForms(done.forms, forms).size;
    return isSame ? step : null;
}
