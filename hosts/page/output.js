/**
 * Draws the output up to the current step, or all of it if the user asks for that: the part around what was printed
 * last, in pieces that are decoded once.
 * @module
 */

import { plainText, several } from './codes.js';
import { element, find } from './dom.js';

const PIECE = 2048;
const MOST_PIECES = 8;

/** The output of a run, and how much of it is printed up to the step that is looked at. */
export class OutputView {
    constructor() {
        this.box = find('output');
        this.bytes = new Uint8Array(0);
        this.from = 0;
        /** Whether all of it is drawn, as on paper. */
        this.isWhole = false;
        /** How many bytes are printed so far. */
        this.printed = 0;
        /** @type {string[]} */
        this.pieces = [];
        find('output-before').addEventListener('click', () => this.turn(-MOST_PIECES));
        find('output-after').addEventListener('click', () => this.turn(MOST_PIECES));
        find('show-all').addEventListener('change', () => {
            this.draw();
            this.reveal();
        });
        this.forget();
    }

    /** Shows nothing. */
    forget() {
        this.open(new Uint8Array(0));
    }

    /** @param {Uint8Array} bytes all that a run prints */
    open(bytes) {
        this.bytes = bytes;
        this.from = 0;
        this.printed = -1;
        this.pieces = [];
        this.show(bytes.length);
    }

    /** How many bytes may be shown. */
    get length() {
        return find('show-all').checked ? this.bytes.length : this.printed;
    }

    /**
     * The end of a piece, which isn't within a character.
     * @param {number} index
     */
    endOf(index) {
        let to = Math.min(this.bytes.length, (index + 1) * PIECE);
        while (to < this.bytes.length && (this.bytes[to] & 0xc0) === 0x80) to += 1;
        return to;
    }

    /**
     * Shows what is printed at a step.
     * @param {number} printed how many are printed so far
     * @returns {void}
     */
    show(printed) {
        if (printed === this.printed) return;
        this.printed = printed;
        const piece = Math.floor(Math.max(0, printed - 1) / PIECE);
        if (piece < this.from || piece >= this.from + MOST_PIECES) {
            this.from = Math.max(0, piece - MOST_PIECES / 2);
        }
        this.draw();
        this.reveal();
    }

    /** @param {number} by how many pieces to go on, or back */
    turn(by) {
        this.from = Math.max(0, Math.min(this.from + by, Math.floor(Math.max(0, this.length - 1) / PIECE)));
        this.draw();
        this.box.scrollTop = by < 0 ? this.box.scrollHeight : 0;
    }

    draw() {
        const start = this.from && !this.isWhole ? this.endOf(this.from - 1) : 0;
        const { length } = this;
        const end = this.isWhole ? length : Math.min(length, this.endOf(this.from + MOST_PIECES - 1));
        const now = Math.max(start, Math.min(this.printed, end));
        const done = this.nodes(start, now);
        const later = element('span', 'later', ...this.nodes(now, end));
        this.box.replaceChildren(...done, ...(now < end ? [later] : []));
        find('output-turn').hidden = !start && end === length;
        find('output-where').textContent = `${several(start, 'byte')} before, ${
            several(length - end, 'byte')} after`;
        find('output-before').setAttribute('aria-disabled', String(!start));
        find('output-after').setAttribute('aria-disabled', String(end === length));
    }

    /**
     * Text nodes of a part, one for each piece.
     * @param {number} from
     * @param {number} to
     */
    nodes(from, to) {
        const made = [];
        for (let at = from; at < to;) {
            const end = Math.min(to, this.endOf(Math.floor(at / PIECE)));
            const part = Math.max(end, at + 1);
            made.push(document.createTextNode(this.textOf(at, Math.min(part, to))));
            at = part;
        }
        return made;
    }

    /**
     * The text of a part; that of a whole piece is kept.
     * @param {number} from
     * @param {number} to
     */
    textOf(from, to) {
        const index = Math.floor(from / PIECE);
        const isWhole = to === this.endOf(index) && from === (index ? this.endOf(index - 1) : 0);
        if (!isWhole) return plainText(this.bytes.subarray(from, to));
        this.pieces[index] ??= plainText(this.bytes.subarray(from, to));
        return this.pieces[index];
    }

    /** Scrolls the box to what was printed last. */
    reveal() {
        const later = this.box.querySelector('.later');
        const room = this.box.clientHeight;
        const place = later ? later.offsetTop - this.box.offsetTop : this.box.scrollHeight;
        if (place - this.box.scrollTop > room - 24 || place < this.box.scrollTop) {
            this.box.scrollTop = place - room / 2;
        }
    }
}
