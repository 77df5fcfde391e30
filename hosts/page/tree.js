/**
 * The calls around the step that is looked at, as a tree: each with its arguments and its value.
 * @module
 */

import { Session } from '../js/trac.mjs';
import { FRONT_OF_LINE, NEUTRAL_CALL, callAhead, lineOf, shortName } from './codes.js';
import { element, find, reveal } from './dom.js';
import { SLICE, Walker, pause } from './machines.js';

const AROUND = 30;

/**
 * @typedef {{step: number, depth: number, words: string[], isNeutral: boolean, value: string}} Row
 * @typedef {{row: Row, inner: Tree[]}} Tree
 */

/**
 * Calls in the order in which they are performed, as trees: a call contains the calls in its arguments, and those made
 * by scanning these.
 * @param {Row[]} rows
 */
function nested(rows) {
    /** @type {Tree[]} */
    const trees = [];
    for (const row of rows) {
        let from = trees.length;
        while (from > 0 && trees[from - 1].row.depth > row.depth) from -= 1;
        trees.push({ row, inner: trees.splice(from) });
    }
    return trees;
}

/**
 * The text of a call and of its value.
 * @param {Row} row
 */
function wordsOf({ words, isNeutral, value }) {
    return `${isNeutral ? '##(' : '#('}${shortName(words.map(shortName).join(','))}) → ${
        value ? shortName(value) : 'null'}`;
}

/** The tree of calls of a run. */
export class CallTree {
    /** @param {(step: number) => void} go goes to a step */
    constructor(go) {
        this.go = go;
        this.leaving = new AbortController();
        /** @type {Map<number, Row>} */
        this.rows = new Map();
        this.input = new Uint8Array(0);
        /** @type {Walker | null} */
        this.walker = null;
        this.from = 0;
        this.to = 0;
        /** @type {import('./history.js').History | null} */
        this.history = null;
        find('tree-part').addEventListener('toggle', () => this.show());
    }

    /**
     * @param {import('./history.js').History} history
     * @param {Uint8Array} input
     */
    open(history, input) {
        this.close();
        [this.history, this.input] = [history, input];
    }

    /** Leaves the run. */
    close() {
        this.leaving.abort();
        this.history = null;
        this.walker = null;
        this.rows.clear();
        [this.from, this.to] = [0, 0];
        find('tree').replaceChildren();
    }

    /** Shows the calls around the current step, if the tree is shown. */
    async show() {
        const { history } = this;
        if (!history || !find('tree-part').open) return;
        const index = Math.max(0, history.calls.upTo(history.step) - 1);
        const isInside = index >= this.from && index < this.to && this.rows.size > 0;
        if (!isInside) await this.draw(index);
        this.showCurrent();
    }

    /** @param {number} index that of the call in the middle */
    async draw(index) {
        this.leaving.abort();
        this.leaving = new AbortController();
        const { signal } = this.leaving;
        const { history } = this;
        const from = Math.max(0, index - AROUND);
        const to = Math.min(history.calls.length, index + AROUND);
        const { input } = this;
        const session = this.walker?.session ?? await Session.open(history.block);
        if (signal.aborted) return;
        this.walker ??= new Walker(session, input);
        const steps = Array.from({ length: to - from }, (_, at) => history.calls.at(from + at));
        await this.read(steps, signal);
        if (signal.aborted) return;
        [this.from, this.to] = [from, to];
        const rows = steps.map((step) => this.rows.get(step)).filter(Boolean);
        find('tree').replaceChildren(...nested(rows).map((tree) => this.item(tree)));
        this.showCurrent();
    }

    /**
     * Reads the calls after these steps, in slices.
     * @param {number[]} steps
     * @param {AbortSignal} signal
     */
    async read(steps, signal) {
        let until = performance.now() + SLICE;
        for (const step of steps) {
            if (performance.now() > until) {
                await pause();
                until = performance.now() + SLICE;
            }
            if (signal.aborted) return;
            if (!this.rows.has(step)) this.readCall(step);
        }
    }

    /** @param {number} step */
    readCall(step) {
        const { walker, history } = this;
        const near = history.kept.before(step);
        if (walker.state.step > step || near.state.step > walker.state.step) walker.restore(near);
        walker.advance(step - walker.state.step);
        const { session } = walker;
        const call = callAhead(session);
        if (!call) return;
        const depth = session.callCount();
        const { active } = session.parts();
        walker.advance(1);
        const grown = session.parts().active - (active - 1);
        const isBack = call.mark === NEUTRAL_CALL && grown <= 0;
        const value = isBack ? session.neutralPart(call.place, FRONT_OF_LINE)
            : session.active(Math.min(grown, FRONT_OF_LINE));
        this.rows.set(step, {
            step,
            depth,
            words: call.words,
            isNeutral: call.mark === NEUTRAL_CALL,
            value: lineOf(value),
        });
    }

    /**
     * @param {Tree} tree
     * @returns {HTMLElement}
     */
    item({ row, inner }) {
        const label = element('button', 'call', wordsOf(row));
        label.setAttribute('type', 'button');
        label.dataset.step = String(row.step);
        label.addEventListener('click', () => this.go(row.step));
        const list = inner.map((each) => this.item(each));
        return element('li', '', label, ...(list.length ? [element('ul', '', ...list)] : []));
    }

    /** Marks the last call that isn't after the current step. */
    showCurrent() {
        const { history } = this;
        if (!history) return;
        const step = history.calls.at(Math.max(0, history.calls.upTo(history.step) - 1));
        find('tree').querySelector('[aria-current]')?.removeAttribute('aria-current');
        const current = find('tree').querySelector(`[data-step="${step}"]`);
        if (!current) return;
        current.setAttribute('aria-current', 'step');
        reveal(find('tree'), current);
    }
}
