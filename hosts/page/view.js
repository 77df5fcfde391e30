/**
 * Shows the machine at a step: all parts of it, and in words what the next step does and what the last
 * call gave.
 * @module
 */

import {
    RULES, counted, lineOf, several, shortName,
} from './codes.js';
import { showBlock } from './block.js';
import { find, withBlanks } from './dom.js';
import { FormsView, changedForms } from './forms.js';
import { callWords, nameWords } from './functions.js';
import { OutputView } from './output.js';
import { MOST_ACTIVE, NeutralView, showActive } from './strings.js';

/** @typedef {import('./history.js').History} History */

const FAULTS = new Set(['workspace', 'steps']);

/**
 * Whether a fate is a fault of the script.
 * @param {string} fate
 */
export function isFault(fate) {
    return FAULTS.has(fate);
}

/**
 * The step after the string that the next step reads, if the steps of the idling procedure are shown as one.
 * @param {History} history
 */
export function stepRead(history) {
    const isFolded = find('fold').checked && history.machine.rule() === 'idling';
    return isFolded ? history.readFrom(history.step) : null;
}

/**
 * What the next step does, in words.
 * @param {History} history
 * @param {string} rule
 */
function ruleWords(history, rule) {
    const { machine, end } = history;
    const read = stepRead(history);
    if (read !== null) {
        return `The active string is empty, so the string is read: the idling procedure #(ps,#(rs)) is loaded, and ${
            read === end.step && end.fate === 'input ended' ? 'there is no more input' : 'its rs reads the input'}.`;
    }
    if (rule === 'end of call') return performedWords(history);
    if (rule === 'argument' && !machine.callCount()) return 'No call is open: the comma is deleted.';
    if (machine.drops()) return 'The parenthesis has no matching one: the active string becomes empty.';
    return RULES[rule];
}

/**
 * What the call does that the next step performs.
 * @param {History} history
 */
function performedWords(history) {
    const { machine } = history;
    const call = history.coming();
    // the allowance is used up, so there is no next step
    if (!call && machine.callCount()) return RULES['end of call'];
    if (!call) return 'No call is open: the right parenthesis is deleted.';
    const { given } = call;
    return `The innermost open call is performed: ${nameWords(call.words[0], 'a call without a name')}${
        given ? ` with ${several(given, 'argument')}` : ''}. ${callWords(history, call)}`;
}

/**
 * What the last call gave, in words.
 * @param {import('./history.js').Value | null} value
 */
function valueWords(value) {
    if (!value) return '';
    const name = nameWords(value.words[0], 'The call');
    if (!value.length) return `${name} gave the null text.`;
    const text = shortName(lineOf(value.front));
    return value.isActive
        ? `${name} gave “${text}”: active, to be scanned again.`
        : `${name} gave “${text}”: neutral, not scanned again.`;
}

/**
 * The words in front of the rule where the run is over.
 * @param {History} history
 */
function overWords({ step, end, isCut }) {
    if (step < end.step) return '';
    if (isCut) return 'The run was stopped here: a link alone runs no further.';
    return {
        halted: 'The run is over: the script called hl.',
        'input ended': 'The run is over: there is no more input.',
        workspace: 'Not done, for want of cells.',
        steps: 'Not done: the allowance is used up.',
        going: 'You stopped the run here.',
    }[end.fate];
}

/** What is shown of a run at a step. */
export class View {
    constructor() {
        this.neutral = new NeutralView();
        this.forms = new FormsView();
        this.output = new OutputView();
    }

    /**
     * @param {History} history
     * @param {Uint8Array} output all that the run prints
     */
    open(history, output) {
        this.history = history;
        this.forms.open();
        this.output.open(output);
    }

    /** Shows the step at which the history stands. */
    show() {
        const { history } = this;
        const { machine } = history;
        const rule = machine.rule();
        const parts = machine.parts();
        const value = history.value();
        const open = this.neutral.show(machine, parts.neutral, value && !value.isActive ? value.length : 0);
        const taken = machine.takes();
        showActive(machine.active(MOST_ACTIVE), parts.active, {
            scanned: rule === 'protection' ? 1 : taken, taken, open, landed: value?.isActive ? value.length : 0,
        });
        this.showForms();
        showBlock(parts, {
            cells: history.limits.cells,
            need: history.need,
            peak: history.shown.state.peak,
            least: history.end.peak,
        });
        this.output.show(history.shown.state.printed);
        this.showWords(rule, ruleWords(history, rule), valueWords(value));
    }

    /** Shows the forms, and which of them the last step changed. */
    showForms() {
        const { history } = this;
        const forms = history.forms();
        const before = history.performed?.forms;
        const changed = before ? changedForms(before, forms) : new Set();
        this.changes = before ? changed.size > 0 || before.length !== forms.length : false;
        this.forms.show(forms, changed);
        const { meta } = history.machine;
        find('meta').textContent = meta > 32 && meta < 127
            ? `meta character ${String.fromCharCode(meta)}` : `meta character is byte ${meta}`;
    }

    /**
     * @param {string} rule
     * @param {string} words
     * @param {string} gave
     */
    showWords(rule, words, gave) {
        const over = overWords(this.history);
        const { fate, step } = this.history.end;
        const isDone = over && (fate === 'halted' || fate === 'input ended');
        find('rule-name').textContent = isDone ? '' : `${rule}.`;
        find('rule-name').hidden = isDone;
        find('rule-says').replaceChildren(...withBlanks(isDone ? over : [words, over].filter(Boolean).join(' ')));
        find('rule-says').className = over && isFault(fate) ? 'late' : '';
        find('gave').replaceChildren(...withBlanks(gave));
        find('count').textContent = `${counted(this.history.step)} of ${several(step, 'step')} done`;
    }
}
