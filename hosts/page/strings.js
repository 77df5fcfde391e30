/**
 * Draws both strings. A part that is as it was drawn last stays.
 * @module
 */

import {
    NEUTRAL_CALL, openAt, piecesOf, several,
} from './codes.js';
import { coloured, depthClass, element, find, mark, nodes, nodesOf } from './dom.js';

const MOST_ROWS = 40;
const MOST_IN_ROW = 1200;
/** How many characters of the active string are shown. */
export const MOST_ACTIVE = 2000;

/** A part of a machine's neutral string. Only what is shown is read. */
class Part {
    /**
     * @param {import('../js/trac.mjs').Session} machine
     * @param {number} from
     * @param {number} to
     */
    constructor(machine, from, to) {
        this.machine = machine;
        this.from = from;
        this.length = to - from;
        const half = MOST_IN_ROW / 2;
        this.isLong = this.length > MOST_IN_ROW;
        this.front = this.isLong ? this.read(0, half) : new Uint32Array(0);
        this.end = this.read(this.isLong ? this.length - half : 0, this.length);
    }

    /**
     * @param {number} from
     * @param {number} to
     */
    read(from, to) {
        return this.machine.neutralPart(this.from + from, to - from);
    }
}

/**
 * The nodes of a part, without its middle if it is long. The value of the last call is at its end.
 * @param {Part} part
 * @param {number} landed how many codes the last call gave
 */
function shortened({ front, end, isLong, length }, landed) {
    const given = Math.max(0, end.length - landed);
    const cut = isLong ? [...nodesOf(front),
        element('span', 'cut', ` … ${several(length - MOST_IN_ROW, 'cell')} … `)] : [];
    const last = landed ? [element('mark', 'landed', ...nodesOf(end.subarray(given)))] : [];
    return [...cut, ...nodesOf(end.subarray(0, given)), ...last];
}

/**
 * A line of the neutral string.
 * @param {Part} part
 * @param {number} kindOfCall its mark, 0 for the base text
 * @param {number} depth 0 for the base text
 * @param {number} landed
 */
function neutralRow(part, kindOfCall, depth, landed) {
    const inside = shortened(part, landed);
    if (!depth) {
        const label = element('span', 'nothing', inside.length ? 'base text ' : 'no base text');
        return element('li', 'base', label, ...inside);
    }
    const isNeutral = kindOfCall === NEUTRAL_CALL;
    const kind = isNeutral ? 'neutral' : 'active';
    const number = element('span', 'depth', String(depth));
    number.setAttribute('aria-hidden', 'true');
    const made = element('li', `call ${kind} ${depthClass(depth)}`, number,
        mark(kind, isNeutral ? '##(' : '#(', `${kind} call`, kindOfCall), ...inside);
    made.style.setProperty('--indent', String(depth - 1));
    return made;
}

/**
 * What a line shows, as one text: lines of the same text look the same.
 * @param {Part} part
 * @param {(string | number)[]} more
 */
function keyOf({ front, end, length }, ...more) {
    return [...more, length, ...[front, end].map((codes) => String.fromCharCode(...codes))].join(' ');
}

/** The neutral string: the base text, and a line for each open call. */
export class NeutralView {
    constructor() {
        this.list = find('neutral');
        /** @type {Map<string, HTMLElement>} */
        this.drawn = new Map();
        // in another size too the innermost call is in view
        new ResizeObserver(() => this.reveal()).observe(this.list);
    }

    /** Scrolls to the end, where the next character goes. */
    reveal() {
        this.list.scrollTop = this.list.scrollHeight;
    }

    /**
     * @param {import('../js/trac.mjs').Session} machine
     * @param {number} length how many codes the neutral string has
     * @param {number} landed how many codes at its end the last call gave
     * @returns {number} how many calls are open
     */
    show(machine, length, landed) {
        const stops = [...machine.calls()].reverse();
        const open = stops.length;
        const left = Math.max(0, open + 1 - MOST_ROWS);
        const front = left ? MOST_ROWS / 4 : open + 1;
        const before = this.drawn;
        this.drawn = new Map();
        /** @type {HTMLElement[]} */
        const lines = [];
        for (let depth = 0; depth <= open; depth += 1) {
            if (left && depth === front) {
                lines.push(element('li', 'cut', `… ${several(left, 'open call')} more …`));
                depth += left;
            }
            const from = depth ? stops[depth - 1] : 0;
            const part = new Part(machine, depth ? from + 1 : 0, stops[depth] ?? length);
            const kind = depth ? machine.neutralPart(from, 1)[0] : 0;
            lines.push(this.line(before, part, kind, depth, depth === open ? landed : 0));
        }
        this.list.replaceChildren(...lines);
        this.reveal();
        return open;
    }

    /**
     * A line, drawn anew where none was like it.
     * @param {Map<string, HTMLElement>} before
     * @param {Part} part
     * @param {number} kind
     * @param {number} depth
     * @param {number} landed
     */
    line(before, part, kind, depth, landed) {
        const key = keyOf(part, kind, depth, landed);
        const made = before.get(key) ?? neutralRow(part, kind, depth, landed);
        this.drawn.set(key, made);
        return made;
    }
}

/**
 * The nodes of a part of the active string.
 * @param {Uint32Array} codes
 * @param {number} open how many calls are open in front of it
 */
function activeNodes(codes, open) {
    let depth = open;
    return piecesOf(codes).flatMap((piece) => {
        if (piece.kind !== 'text') return nodes([piece]);
        const made = coloured(piece.text, depth);
        depth = openAt(piece.text, piece.text.length, depth);
        return made;
    });
}

/**
 * Shows the active string. What the next step scans and takes is marked, and what the last call gave.
 * @param {Uint32Array} shown its front
 * @param {number} length how many characters the whole has
 * @param {{scanned: number, taken: number, open: number, landed: number}} how how many characters the next
 * step scans, and how many it takes; how many calls are open; how many characters the last call gave
 */
export function showActive(shown, length, { scanned, taken, open, landed }) {
    const box = find('active');
    const kept = Math.min(shown.length, taken);
    const given = Math.min(shown.length, landed);
    /** @type {Node[]} */
    const inside = length ? [] : [element('span', 'nothing', 'empty')];
    const stops = [...new Set([0, scanned, kept, given, shown.length])].sort((a, b) => a - b);
    stops.slice(1).forEach((to, index) => {
        const from = stops[index];
        const names = [from < scanned ? 'scanned' : from < kept ? 'kept' : '', from < given ? 'landed' : ''];
        const part = activeNodes(shown.subarray(from, to), depthAt(shown, from, open));
        const kind = names.filter(Boolean).join(' ');
        inside.push(...(kind ? [element(kind === 'kept' ? 'span' : 'mark', kind, ...part)] : part));
    });
    if (length > shown.length) {
        inside.push(element('span', 'cut', ` … ${several(length - shown.length, 'character')} more`));
    }
    box.replaceChildren(...inside);
    box.scrollTop = 0;
}

/**
 * How many parentheses are open in front of a place of the active string, with the open calls.
 * @param {Uint32Array} codes
 * @param {number} place
 * @param {number} open
 */
function depthAt(codes, place, open) {
    let depth = open;
    for (let at = 0; at < place; at += 1) {
        if (codes[at] === 40) depth += 1;
        if (codes[at] === 41) depth = Math.max(0, depth - 1);
    }
    return depth;
}
