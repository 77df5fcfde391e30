/**
 * Goes through the steps of a run: by buttons, keys and sliders, by jumps, and by itself.
 * @module
 */

import { counted } from './codes.js';
import { find } from './dom.js';
import { MOST_LISTED } from './history.js';
import { pause } from './machines.js';
import {
    callBefore, endOfCall, endOfOpened, nextCall, nextChange, nextNamed, nextPrinting, opensCall,
} from './search.js';
import { stepRead } from './view.js';

/** @typedef {import('./history.js').History} History */
/** @typedef {(history: History, signal: AbortSignal) => number | null | Promise<number | null>} Search */

/** @type {Record<string, {find: Search, none: string}>} */
const JUMPS = {
    printing: { find: nextPrinting, none: 'Nothing more is printed.' },
    change: { find: nextChange, none: 'No form changes any more.' },
    string: { find: (history) => history.strings.after(history.step), none: 'No more strings are read.' },
    end: { find: endOfCall, none: 'No call is open that will be performed.' },
    name: {
        find: (history, signal) => nextNamed(history, find('jump-name').value, signal),
        none: 'No such call comes any more.',
    },
};

/**
 * A control that can't be used now keeps the focus.
 * @param {string} id
 * @param {boolean} isOff
 */
function turnOff(id, isOff) {
    find(id).setAttribute('aria-disabled', String(isOff));
}

/** @param {string} id */
function isOff(id) {
    return find(id).getAttribute('aria-disabled') === 'true';
}

/** The steps of the run that is shown. */
export class Stepper {
    /** @param {import('./view.js').View} view */
    constructor(view) {
        this.view = view;
        /** @type {History | null} */
        this.history = null;
        /** The step that is shown, or that is gone to. */
        this.at = 0;
        this.leaving = new AbortController();
        this.searching = new AbortController();
        /** @type {number | undefined} */
        this.timer = undefined;
        /** Called when another step is shown. */
        this.onStep = () => {};
        /** @type {Record<string, () => void>} */
        this.moves = {
            first: () => this.go(0),
            back: () => this.goBack(),
            step: () => this.goOn(),
            last: () => this.go(this.history.end.step),
            over: () => this.goOver(),
            finish: () => this.search(JUMPS.end.find, JUMPS.end.none),
            'call-back': () => this.goCallBack(),
            'call-step': () => this.goNextCall(),
        };
        this.listen();
    }

    listen() {
        // to finish a call there is a key alone
        for (const id of Object.keys(this.moves)) find(id)?.addEventListener('click', () => this.press(id));
        find('slider').addEventListener('input', () => this.press('slider'));
        find('calls').addEventListener('input', () => this.press('calls'));
        for (const id of ['jump', 'stop-at']) find(id).addEventListener('change', () => this.showFields());
        find('jump-go').addEventListener('click', () => this.jump());
        for (const id of ['jump-name', 'jump-step']) {
            find(id).addEventListener('keydown', (/** @type {KeyboardEvent} */ event) => {
                if (event.key === 'Enter' && !event.ctrlKey && !event.metaKey) this.jump();
            });
        }
        find('fold').addEventListener('change', () => this.history && this.show());
        find('play').addEventListener('click', () => (this.timer ? this.halt() : this.play()));
        this.showFields();
    }

    /**
     * Shows a run from a step on.
     * @param {History} history
     * @param {number | null} step null for the first character of the script
     */
    open(history, step) {
        this.close();
        this.history = history;
        find('slider').max = String(history.end.step);
        this.list(this.leaving.signal);
        this.go(step ?? ((find('fold').checked && history.readFrom(0)) || 0));
    }

    /** Leaves the run. */
    close() {
        this.halt();
        this.leaving.abort();
        this.searching.abort();
        this.leaving = new AbortController();
        this.history = null;
    }

    /** @param {AbortSignal} signal */
    async list(signal) {
        const { history } = this;
        this.showListed(history);
        await history.list(signal, () => signal.aborted || this.showListed(history));
        if (!signal.aborted) this.showListed(history);
    }

    /**
     * Shows how many calls are listed.
     * @param {History} history
     */
    showListed({ calls, listed, end }) {
        find('calls').max = String(Math.max(0, calls.length - 1));
        find('calls').disabled = !calls.length;
        const isAll = listed >= end.step;
        const isDone = isAll || listed >= MOST_LISTED;
        find('listed').textContent = `${counted(calls.length)}${
            isAll ? '' : ` up to step ${counted(listed)}`}`;
        find('calls').dataset.listed = isDone ? 'all' : 'some';
        this.showCall();
    }

    /**
     * Does what a control or its key is for, unless it can't be used now.
     * @param {string} id
     */
    press(id) {
        if (!this.history || (find(id) && isOff(id))) return;
        this.halt();
        if (id === 'slider') this.go(Number(find('slider').value));
        else if (id === 'calls') this.go(this.history.calls.at(Number(find('calls').value)));
        else this.moves[id]();
    }

    /**
     * Goes to a step: at once where that is near, else in slices.
     * @param {number} step
     */
    go(step) {
        const { history } = this;
        this.searching.abort();
        this.at = Math.max(0, Math.min(step, history.end.step));
        if (history.approach(this.at)) this.show();
        else this.goFar(this.at);
    }

    /** Goes a step on, or where the steps of the idling procedure are one, behind the string that it reads. */
    goOn() {
        const isThere = this.history.step === this.at;
        this.go((isThere ? stepRead(this.history) : null) ?? this.at + 1);
    }

    /** Goes a step back, or to the begin of a reading that is one step. */
    goBack() {
        const begin = find('fold').checked ? this.history.readUpTo(this.at) : null;
        this.go(begin ?? this.at - 1);
    }

    /** @param {number} step */
    async goFar(step) {
        const { signal } = this.begin(`Going to step ${counted(step)} …`);
        const { history } = this;
        let isThere = false;
        while (!isThere && !signal.aborted) {
            await pause();
            isThere = !signal.aborted && history.approach(step);
        }
        if (isThere) this.show();
    }

    /**
     * Begins what takes its time. Another move ends it.
     * @param {string} words
     */
    begin(words) {
        this.searching.abort();
        this.searching = new AbortController();
        find('count').textContent = words;
        find('machine').setAttribute('aria-busy', 'true');
        return this.searching;
    }

    /**
     * Goes to a step that is looked for; stays where there is none.
     * @param {Search} search
     * @param {string} none what is said then
     * @param {number} [beyond] how many steps further to go
     */
    async search(search, none, beyond = 0) {
        const from = this.at;
        const { signal } = this.begin('Looking for it …');
        const found = await search(this.history, signal);
        if (signal.aborted) return;
        this.go(found === null ? from : found + beyond);
        find('jump-told').textContent = found === null ? none : '';
        if (found === null) this.halt();
    }

    /** Ends a search, and shows the step from which it began. */
    stopSearch() {
        if (find('machine').getAttribute('aria-busy') === 'true') this.go(this.at);
    }

    /** Shows the step that is reached. */
    show() {
        find('machine').setAttribute('aria-busy', 'false');
        find('jump-told').textContent = '';
        this.view.show();
        const { at, history: { end } } = this;
        const slider = find('slider');
        slider.value = String(at);
        slider.setAttribute('aria-valuetext', `step ${counted(at)} of ${counted(end.step)}`);
        for (const id of ['first', 'back']) turnOff(id, at === 0);
        for (const id of ['step', 'over', 'last']) turnOff(id, at === end.step);
        this.showCall();
        if (this.timer && (at === end.step || this.isStop())) this.halt();
        this.onStep();
    }

    /** Sets the slider of the calls, which stands at the last call that is not after the step. */
    showCall() {
        const { calls, listed, end } = this.history;
        const count = calls.upTo(this.at);
        const slider = find('calls');
        slider.value = String(Math.max(0, count - 1));
        slider.setAttribute('aria-valuetext', `call ${counted(count)} of ${counted(calls.length)}`);
        turnOff('call-back', this.at === 0 || (this.at <= listed && !calls.upTo(this.at - 1)));
        turnOff('call-step', this.at >= end.step || (listed >= end.step && count >= calls.length));
    }

    /** Goes to the call in front: of the list, or looked for where the list doesn't reach. */
    goCallBack() {
        const { calls, listed } = this.history;
        const { at } = this;
        const count = calls.upTo(at - 1);
        if (at <= listed && count) this.go(calls.at(count - 1));
        else this.search((history, signal) => callBefore(history, at, signal), 'No call comes before.');
    }

    /**
     * Goes to the next call, or behind it.
     * @param {number} [beyond]
     */
    goNextCall(beyond = 0) {
        const { calls } = this.history;
        const count = calls.upTo(this.at);
        if (count < calls.length) this.go(calls.at(count) + beyond);
        else this.search((history, signal) => nextCall(history, () => true, signal), 'No call comes any more.', beyond);
    }

    /** Goes over the call that the next step opens, to its value, or makes a step that opens none. */
    goOver() {
        if (opensCall(this.history)) this.search(endOfOpened, 'This call is never performed.', 1);
        else this.goOn();
    }

    /** Shows the fields that what is chosen needs. */
    showFields() {
        const { value } = find('jump');
        find('jump-name').hidden = value !== 'name';
        find('jump-step').hidden = value !== 'step';
        find('stop-name').hidden = find('stop-at').value !== 'name';
    }

    /** Makes the chosen jump. */
    jump() {
        if (!this.history) return;
        this.halt();
        const { value } = find('jump');
        if (value === 'step') this.go(Math.floor(Number(find('jump-step').value) || 0));
        else this.search(JUMPS[value].find, JUMPS[value].none);
    }

    /** Goes on by itself. */
    play() {
        if (!this.history) return;
        if (this.at === this.history.end.step) this.go(0);
        window.clearInterval(this.timer);
        this.timer = window.setInterval(() => this.tick(), 1000 / Number(find('speed').value));
        find('rule').setAttribute('aria-live', 'off');
        this.showPlaying();
    }

    /** Stands still. */
    halt() {
        window.clearInterval(this.timer);
        this.timer = undefined;
        find('rule').setAttribute('aria-live', 'polite');
        this.showPlaying();
    }

    showPlaying() {
        find('play').textContent = this.timer ? 'Pause' : 'Play';
    }

    /** Goes on by a step or a call, unless the last one is still gone to. */
    tick() {
        if (find('machine').getAttribute('aria-busy') === 'true') return;
        if (find('pace').value === 'calls') this.goNextCall(1);
        else this.goOn();
    }

    /** Whether the last step is one to stop at. */
    isStop() {
        const where = find('stop-at').value;
        if (where === 'change') return this.view.changes;
        const name = find('stop-name').value.toLowerCase();
        return where === 'name' && this.history.performed?.words[0].toLowerCase() === name;
    }
}
