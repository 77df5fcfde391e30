/**
 * Draws the forms: some of them, those around the one that changed last, and others when they are asked
 * for.
 * @module
 */

import {
    counted, isSameRow, nameKey, piecesOf, several,
} from './codes.js';
import { button, element, find, nodes, nodesOf, reveal } from './dom.js';

/** How many forms are shown at once. */
const MOST_SHOWN = 50;
const MOST_ITEMS = 1200;

/** @typedef {import('../js/trac.mjs').StoredForm} StoredForm */

/**
 * A gap with its ordinal.
 * @param {number} ordinal
 */
function gap(ordinal) {
    const made = element('span', 'gap', String(ordinal));
    made.title = `gap ${ordinal}`;
    made.prepend(element('span', 'unseen', ' gap '));
    return made;
}

/**
 * The nodes of a part of a form's body, with its gaps, its pointer, and the mark on what is scanned now.
 * @param {Uint32Array} items
 * @param {number} pointer its place in this part, or one outside
 * @param {{from: number, to: number} | null} here
 */
function bodyNodes(items, pointer, here) {
    const pointed = element('span', 'pointer', element('span', 'unseen', ' pointer '));
    const scanned = element('b', 'here');
    const stops = here ? [pointer, here.from, here.to] : [pointer];
    /** @type {Node[]} */
    const inside = [];
    for (const piece of piecesOf(items, stops)) {
        if (piece.at === pointer) inside.push(pointed);
        const drawn = piece.kind === 'mark' ? [gap(piece.code - 255)] : nodes([piece]);
        if (!here || piece.at < here.from || piece.at >= here.to) inside.push(...drawn);
        else {
            if (!scanned.firstChild) inside.push(scanned);
            scanned.append(...drawn);
        }
    }
    if (pointer === items.length) inside.push(pointed);
    return inside;
}

/**
 * Whether two forms are the same.
 * @param {StoredForm} one
 * @param {StoredForm} other
 */
function isSame(one, other) {
    return one.pointer === other.pointer && isSameRow(one.name, other.name)
        && isSameRow(one.items, other.items);
}

/**
 * Which forms aren't as before, by their places.
 * @param {StoredForm[]} before
 * @param {StoredForm[]} forms
 */
export function changedForms(before, forms) {
    const known = new Map(before.map((form) => [nameKey(form.name), form]));
    const changed = new Set();
    forms.forEach((form, place) => {
        const old = known.get(nameKey(form.name));
        if (!old || !isSame(old, form)) changed.add(place);
    });
    return changed;
}

/** The list of forms. */
export class FormsView {
    constructor() {
        this.list = find('forms');
        /** @type {StoredForm[]} */
        this.forms = [];
        /** @type {Set<number>} */
        this.changed = new Set();
        this.from = 0;
        /** Whether all of them are drawn, as on paper. */
        this.isWhole = false;
        /** @type {{place: number, from: number, to: number} | null} what is scanned now of a form's body */
        this.here = null;
        /** @type {Map<number, number>} of which place so many items are shown, where they were asked for */
        this.asked = new Map();
        find('forms-before').addEventListener('click', () => this.turn(-MOST_SHOWN));
        find('forms-after').addEventListener('click', () => this.turn(MOST_SHOWN));
        find('forms-find').addEventListener('input', () => this.seek(find('forms-find').value));
    }

    /** Begins with the first form again. */
    open() {
        this.from = 0;
    }

    /**
     * Shows these forms, with the ones that changed in view.
     * @param {StoredForm[]} forms
     * @param {Set<number>} changed
     */
    show(forms, changed) {
        const isKnown = forms === this.forms && !changed.size && !this.changed.size;
        if (isKnown && this.list.firstChild) return;
        [this.forms, this.changed, this.here] = [forms, changed, null];
        this.asked.clear();
        const last = Math.max(-1, ...changed);
        if (last >= 0 && (last < this.from || last >= this.from + MOST_SHOWN)) {
            this.from = Math.floor(last / MOST_SHOWN) * MOST_SHOWN;
        }
        this.draw();
        const first = this.list.querySelector('.changed');
        if (first) reveal(this.list, first);
    }

    /**
     * Marks what is scanned now, if it was written in a form's body, and removes the earlier mark.
     * @param {{place: number, from: number, to: number} | null} here
     */
    mark(here) {
        const before = this.here;
        this.here = here;
        if (here && (here.place < this.from || here.place >= this.from + MOST_SHOWN)) {
            this.from = Math.floor(here.place / MOST_SHOWN) * MOST_SHOWN;
            this.draw();
        } else for (const place of new Set([before?.place, here?.place])) this.drawBody(place);
        if (here) window.requestAnimationFrame(() => this.revealHere());
    }

    /** Scrolls to what is scanned now, when the browser lays the page out anyway. */
    revealHere() {
        const marked = this.list.querySelector('.here');
        if (marked instanceof HTMLElement) reveal(this.list, marked);
    }

    /**
     * Draws the body of a form again, if it is shown.
     * @param {number | undefined} place
     */
    drawBody(place) {
        const drawn = this.list.querySelectorAll('dd')[place - (this.isWhole ? 0 : this.from)];
        drawn?.replaceChildren(...this.body(this.forms[place], place));
    }

    /** @param {number} by how many forms to go on, or back */
    turn(by) {
        this.from += by;
        this.draw();
        this.list.scrollTop = 0;
    }

    /**
     * Goes to the first form whose name begins so.
     * @param {string} text
     */
    seek(text) {
        const start = new TextEncoder().encode(text);
        const place = this.forms.findIndex(
            ({ name }) => isSameRow(name.subarray(0, start.length), start));
        if (place < 0) return;
        this.from = Math.floor(place / MOST_SHOWN) * MOST_SHOWN;
        this.draw();
        const names = this.list.querySelectorAll('dt');
        this.list.scrollTop = names[place - this.from].offsetTop - this.list.offsetTop;
    }

    draw() {
        const { forms } = this;
        this.from = Math.max(0, Math.min(this.from, Math.floor((forms.length - 1) / MOST_SHOWN) * MOST_SHOWN));
        const start = this.isWhole ? 0 : this.from;
        const part = this.isWhole ? forms : forms.slice(start, start + MOST_SHOWN);
        const inside = part.flatMap((form, index) => this.entry(form, start + index));
        if (!forms.length) inside.push(element('dt', 'nothing', 'none'));
        this.list.replaceChildren(...inside);
        find('forms-turn').hidden = forms.length <= MOST_SHOWN;
        find('forms-where').textContent = `${counted(this.from + 1)} to ${
            counted(this.from + part.length)} of ${several(forms.length, 'form')}`;
        find('forms-before').setAttribute('aria-disabled', String(!this.from));
        find('forms-after').setAttribute(
            'aria-disabled', String(this.from + part.length >= forms.length));
    }

    /**
     * @param {StoredForm} form
     * @param {number} place
     */
    entry(form, place) {
        const { name, items, pointer } = form;
        const where = `pointer at ${counted(pointer)} of ${counted(items.length)}`;
        const shown = name.length ? nodesOf(name) : [element('span', 'nothing', 'null name')];
        const kind = this.changed.has(place) ? 'changed' : '';
        return [
            element('dt', kind, ...shown, ' ', element('small', '', where)),
            element('dd', kind, ...this.body(form, place)),
        ];
    }

    /**
     * The body of a form: if it is long, the part around what is scanned of it or around its pointer, and buttons for
     * the rest.
     * @param {StoredForm} form
     * @param {number} place
     */
    body({ items, pointer }, place) {
        const here = this.here?.place === place ? this.here : null;
        const most = this.isWhole ? Infinity : this.asked.get(place) ?? MOST_ITEMS;
        const from = Math.max(0, Math.min((here?.from ?? pointer) - most / 2, items.length - most));
        const to = Math.min(items.length, from + most);
        const more = (/** @type {number} */ count) => button(`… ${several(count, 'item')} more`, () => {
            this.asked.set(place, most * 8);
            this.draw();
            this.list.focus();
        });
        return [
            ...(from ? [more(from), ' '] : []),
            ...bodyNodes(items.subarray(from, to), pointer - from,
                here && { from: here.from - from, to: here.to - from }),
            ...(to < items.length ? [' ', more(items.length - to)] : []),
        ];
    }
}
