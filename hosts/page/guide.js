/**
 * The lesson, part by part: the sentence of a part, what to show, ask and have tried, and the lecturer's notes in a
 * window of their own.
 * @module
 */

import { element, find, marked } from './dom.js';

/** @typedef {import('./lessons.js').Part} Part */

/**
 * A note as a text: its first word, and the words after it.
 * @param {import('./lessons.js').Cue} cue
 */
function cueNodes({ kind, words }) {
    return [element('strong', '', kind), words.startsWith(':') ? '' : ' ', ...marked(words)];
}

/**
 * A part of the lecturer's notes.
 * @param {Part} part
 */
function notesOf({ name, says, script, output, cues }) {
    return element('section', '', element('h2', '', name), element('p', '', ...marked(says)),
        element('pre', '', script), element('pre', 'printed', output),
        element('ul', '', ...cues.map((cue) => element('li', '', ...cueNodes(cue)))));
}

/** The lesson in the head of the page. */
export class Guide {
    /**
     * @param {Part[]} parts
     * @param {(part: Part) => void} onPart called with the part that is gone to
     * @param {() => void} onAddress called when the address has changed
     */
    constructor(parts, onPart, onAddress) {
        this.parts = parts;
        this.onPart = onPart;
        this.onAddress = onAddress;
        /** The part that is shown, by its place; -1 if the lesson is closed. */
        this.at = -1;
        /** @type {Window | null} */
        this.notes = null;
        find('part').append(...parts.map(({ name }) => element('option', '', name)));
        find('lesson').addEventListener('click', () => (this.at < 0 ? this.go(this.chosen) : this.close()));
        find('part').addEventListener('change', () => this.go(find('part').selectedIndex));
        for (const [id, by] of /** @type {const} */ ([['part-before', -1], ['part-after', 1]])) {
            find(id).addEventListener('click', () => this.turn(by));
        }
        find('example').addEventListener('change', () => this.follow());
        find('notes').addEventListener('click', () => this.openNotes());
        window.addEventListener('pagehide', () => this.notes?.close());
    }

    /** The part whose script was chosen, or the first one. */
    get chosen() {
        return Math.max(0, this.parts.findIndex(({ name }) => name === find('example').value));
    }

    /**
     * The part that the address names, or -1.
     * @returns {number}
     */
    static named() {
        return Number(new URLSearchParams(window.location.search).get('lesson') ?? 0) - 1;
    }

    /** Shows the part whose script was chosen among the examples, if the lesson is open. */
    follow() {
        const isPart = this.parts[this.chosen].name === find('example').value;
        if (this.at >= 0 && isPart) this.show(this.chosen);
    }

    /**
     * Goes on, or back, by a number of parts, unless there is no such part.
     * @param {number} by
     */
    turn(by) {
        if (this.parts[this.at + by]) this.go(this.at + by);
    }

    /**
     * Goes to a part: its script is put into the box.
     * @param {number} at
     */
    go(at) {
        this.show(at);
        this.onPart(this.parts[at]);
    }

    /**
     * Shows a part, whatever is in the box.
     * @param {number} at
     */
    show(at) {
        this.at = at;
        const { name, says, cues } = this.parts[at];
        find('guide').hidden = false;
        find('lesson').setAttribute('aria-expanded', 'true');
        document.documentElement.classList.add('guided');
        find('part').value = name;
        find('part-before').setAttribute('aria-disabled', String(at === 0));
        find('part-after').setAttribute('aria-disabled', String(at === this.parts.length - 1));
        find('part-says').replaceChildren(...marked(says));
        find('cues').replaceChildren(...cues.map((cue) => this.cueButton(cue)));
        this.showCue(null);
        this.nameInAddress(String(at + 1));
        this.followNotes();
    }

    /** Ends the lesson; the script stays. */
    close() {
        this.at = -1;
        find('guide').hidden = true;
        find('lesson').setAttribute('aria-expanded', 'false');
        document.documentElement.classList.remove('guided');
        this.nameInAddress(null);
    }

    /**
     * The button of a note, which shows it, or takes it away again.
     * @param {import('./lessons.js').Cue} cue
     */
    cueButton(cue) {
        const made = element('button', 'small', cue.kind);
        made.setAttribute('type', 'button');
        made.setAttribute('aria-pressed', 'false');
        made.addEventListener('click', () => {
            const isShown = made.getAttribute('aria-pressed') === 'true';
            this.showCue(isShown ? null : cue);
            made.setAttribute('aria-pressed', String(!isShown));
        });
        return made;
    }

    /** @param {import('./lessons.js').Cue | null} cue */
    showCue(cue) {
        for (const each of find('cues').children) each.setAttribute('aria-pressed', 'false');
        find('cue').replaceChildren(...(cue ? cueNodes(cue) : []));
    }

    /**
     * Whether the lesson was open before the page was reloaded, even if the address has contained a script since then.
     */
    static get wasOpen() {
        return window.location.hash ? Boolean(window.history.state?.lesson) : true;
    }

    /**
     * Puts a part into the address, so that a reload shows it again, or removes it.
     * @param {string | null} part
     */
    nameInAddress(part) {
        const place = new URL(window.location.href);
        if (part) place.searchParams.set('lesson', part);
        else place.searchParams.delete('lesson');
        place.hash = '';
        window.history.replaceState({ lesson: part }, '', place);
        this.onAddress();
    }

    /** Opens the lecturer's notes in a window of their own, which follows the lesson and can be printed. */
    openNotes() {
        const opened = window.open('', 'trac-t64-notes', 'popup,width=720,height=900');
        find('told').textContent = opened ? ''
            : 'The browser opened no window for the notes: allow this page to open one, and press Notes again.';
        if (!opened) return;
        this.notes = opened;
        const { head, body, documentElement } = opened.document;
        opened.document.title = 'The lecturer’s notes';
        documentElement.lang = 'en';
        documentElement.className = 'notes';
        head.querySelector('style')?.remove();
        head.append(document.head.querySelector('style').cloneNode(true));
        body.replaceChildren(element('h1', '', 'A lesson: the lecturer’s notes'), ...this.parts.map(notesOf));
        this.followNotes();
        opened.focus();
    }

    /** Marks the part in the notes that is shown, and scrolls to it. */
    followNotes() {
        if (!this.notes || this.notes.closed || this.at < 0) return;
        const sections = [...this.notes.document.querySelectorAll('section')];
        sections.forEach((section, index) => {
            if (index === this.at) section.setAttribute('aria-current', 'step');
            else section.removeAttribute('aria-current');
        });
        sections[this.at]?.scrollIntoView();
    }
}
