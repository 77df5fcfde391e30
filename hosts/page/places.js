/**
 * Shows where the characters that a step scans were written: in the script, in the further input, or in the body of a
 * form.
 * @module
 */

import { bytesAround, textOfBytes } from './boxes.js';
import {
    characterAround, counted, isSameRow, lineOf, shortName,
} from './codes.js';
import { find, withBlanks } from './dom.js';
import { nameWords } from './functions.js';
import { pause } from './machines.js';
import { placeWords, stringPart } from './runs.js';
import { isFault } from './view.js';

/** @typedef {import('./runs.js').Run} Run */
/** @typedef {import('./origins.js').Span} Span */

/** How many milliseconds are spent on it before the step is shown without. */
const AT_ONCE = 6;

/**
 * The part of the texts that bytes of the input are, with the whole characters that they belong to.
 * @param {Uint8Array} input
 * @param {number} at
 * @param {number} length
 */
function stretchOf(input, at, length) {
    const { from } = bytesAround(input, at);
    const { to } = bytesAround(input, at + length - 1);
    const front = textOfBytes(input.subarray(0, from)).length;
    return { from: front, to: front + textOfBytes(input.subarray(from, to)).length };
}

/**
 * The place of a form that is unchanged since it was called, or -1.
 * @param {import('../js/trac.mjs').StoredForm[]} forms
 * @param {import('../js/trac.mjs').StoredForm} form
 */
function placeOf(forms, form) {
    return forms.findIndex(({ name, items }) => isSameRow(name, form.name) && isSameRow(items, form.items));
}

/** Where the characters that the current step scans were written. */
export class Places {
    /**
     * @param {import('./boxes.js').Boxes} boxes
     * @param {import('./forms.js').FormsView} forms
     */
    constructor(boxes, forms) {
        this.boxes = boxes;
        this.forms = forms;
        this.leaving = new AbortController();
        /** What the boxes show, so that the same isn't drawn again. */
        this.drawn = '';
        /** Whether to select the place of a fault in the boxes when its step is shown. */
        this.isSelecting = false;
        /** Where the character that was being scanned when a fault ended the run was written, in words. */
        this.faultWords = '';
        /** Called when that is found. */
        this.onFault = () => {};
    }

    /** Takes all marks away. */
    close() {
        this.leaving.abort();
        this.forget();
        [this.isSelecting, this.faultWords] = [false, ''];
        find('whence').textContent = '';
        this.boxes.mark(null);
    }

    /** Takes note that the boxes show no mark of this. */
    forget() {
        this.drawn = '';
    }

    /**
     * Shows it for the step that a run has reached: at once if it is near, otherwise as soon as it is found.
     * @param {Run} run
     * @param {boolean} isCurrent whether the texts are still those of the run
     */
    show(run, isCurrent) {
        this.leaving.abort();
        this.leaving = new AbortController();
        const { step, end } = run.history;
        this.isSelecting &&= step === end.step;
        const isFound = run.history.origins?.approach(step, AT_ONCE);
        const isSought = Boolean(run.history.origins) && !isFound;
        find('whence').setAttribute('aria-busy', String(isSought));
        this.mark(run, isFound ? this.spanAt(run, step) : null, isCurrent);
        if (isSought) this.seek(run, step, isCurrent, this.leaving.signal);
    }

    /**
     * @param {Run} run
     * @param {number} step
     * @param {boolean} isCurrent
     * @param {AbortSignal} signal
     */
    async seek(run, step, isCurrent, signal) {
        const { origins } = run.history;
        do {
            await pause();
            if (signal.aborted) return;
        } while (!origins.approach(step));
        find('whence').setAttribute('aria-busy', 'false');
        this.mark(run, this.spanAt(run, step), isCurrent);
    }

    /**
     * Where the characters that a step scans were written; null if that isn't known, or if it scans nothing.
     * @param {Run} run
     * @param {number} step
     */
    spanAt({ history: { machine, origins, end } }, step) {
        const isOver = step === end.step && !isFault(end.fate) && end.fate !== 'going';
        if (isOver) return null;
        return origins.scanned(step, machine.rule() === 'protection' ? 1 : machine.takes());
    }

    /**
     * @param {Run} run
     * @param {Span | null} span
     * @param {boolean} isCurrent
     */
    mark(run, span, isCurrent) {
        const { step, end } = run.history;
        const words = span ? `from ${this.words(run, span)}` : '';
        find('whence').replaceChildren(...withBlanks(words));
        this.markForm(span);
        if (isCurrent) this.markTexts(run, span);
        if (!span || step < end.step || !isFault(end.fate)) return;
        this.faultWords = `The character that was being scanned is ${words}.`;
        this.onFault();
    }

    /**
     * Marks the string that is scanned, and what of it is scanned now.
     * @param {Run} run
     * @param {Span | null} span
     */
    markTexts(run, span) {
        const { history, input } = run;
        const { end, step, strings } = history;
        const isLast = step === end.step && isFault(end.fate);
        const isWritten = span?.text.kind === 'input';
        const key = `${strings.at(step)?.from} ${isLast} ${isWritten ? `${span.at} ${span.length}` : ''}`;
        if (this.drawn === key) return;
        this.drawn = key;
        const part = stringPart(run, step);
        const here = isWritten ? stretchOf(input, span.at, span.length) : null;
        this.boxes.mark(part && { ...part, isFault: isLast }, here);
        if (!this.isSelecting) return;
        this.boxes.select(here ?? part);
        this.isSelecting = !span;
    }

    /** @param {Span | null} span */
    markForm(span) {
        if (span?.text.kind !== 'form') {
            this.forms.mark(null);
            return;
        }
        const { items } = span.text.form;
        const place = placeOf(this.forms.forms, span.text.form);
        const { from } = characterAround(items, span.at);
        const { to } = characterAround(items, span.at + span.length - 1);
        this.forms.mark(place < 0 ? null : { place, from, to });
    }

    /**
     * Where characters were written, in words.
     * @param {Run} run
     * @param {Span} span
     */
    words({ texts, input }, { text, at }) {
        if (text.kind === 'input') return placeWords(texts, stretchOf(input, at, 1).from);
        if (text.kind === 'idling') return 'the idling procedure';
        if (text.kind === 'made') return `the value of ${nameWords(text.by, 'a call')}`;
        const { form } = text;
        const name = form.name.length ? `form “${shortName(lineOf(form.name))}”` : 'form with the null name';
        const was = placeOf(this.forms.forms, form) < 0 ? ' as it was then' : '';
        return `the ${name}${was}, at ${counted(at)} of ${counted(form.items.length)}`;
    }
}
