/**
 * What all parts of the page are drawn with. All text goes into text nodes, and never becomes markup.
 * @module
 */

import { byDepth, piecesOf } from './codes.js';

const COLOURS = 6;
/** Blanks that one wouldn't see: at the ends of a line or of a quoted text, and several in a row. */
const BLANKS = /((?<=^|“) +| +(?=$|”)| {2,})/m;

/**
 * The element with this id.
 * @param {string} id
 * @returns {any}
 */
export function find(id) {
    return document.getElementById(id);
}

/**
 * The whole number in an input field, or null if it isn't from 1 to a maximum.
 * @param {string} id
 * @param {number} most
 */
export function limitIn(id, most) {
    const { value } = find(id);
    const number = Number(value);
    return value !== '' && Number.isInteger(number) && number >= 1 && number <= most ? number : null;
}

/**
 * An element with a class and contents.
 * @param {string} name
 * @param {string} kind its class, or an empty text
 * @param {...(Node | string)} inside
 */
export function element(name, kind, ...inside) {
    const made = document.createElement(name);
    if (kind) made.className = kind;
    made.append(...inside);
    return made;
}

/**
 * A button in a text, which does something.
 * @param {string} words
 * @param {() => void} act
 */
export function button(words, act) {
    const made = /** @type {HTMLButtonElement} */ (element('button', 'small', words));
    made.type = 'button';
    made.addEventListener('click', act);
    return made;
}

/**
 * A blank that is drawn.
 * @returns {Node | string}
 */
export function blank() {
    const made = element('span', 'blank', ' ');
    made.setAttribute('role', 'img');
    made.setAttribute('aria-label', 'blank');
    return made;
}

/**
 * The nodes of a text, with the blanks drawn that one wouldn't see.
 * @param {string} text
 */
export function withBlanks(text) {
    return text.split(BLANKS).flatMap((part, index) => (index % 2 ? Array.from(part, blank) : [part]));
}

/**
 * The nodes of a text in which code is between grave accents, and strong text between double asterisks.
 * @param {string} text
 */
export function marked(text) {
    return text.split(/(`[^`]*`|\*\*[^*]*\*\*)/).map((part, index) => {
        if (index % 2 === 0) return part;
        return part[0] === '`' ? element('code', '', part.slice(1, -1)) : element('strong', '', part.slice(2, -2));
    });
}

/**
 * The class of a depth's colour.
 * @param {number} depth from 1 on
 */
export function depthClass(depth) {
    return `depth-${((depth - 1) % COLOURS) + 1}`;
}

/**
 * A mark with the words that a screen reader says.
 * @param {string} kind
 * @param {string} shown
 * @param {string} said
 * @param {number} code
 */
export function mark(kind, shown, said, code) {
    const seen = element('span', '', shown);
    seen.setAttribute('aria-hidden', 'true');
    const made = element('span', `mark ${kind}`, seen, element('span', 'unseen', ` ${said} `));
    made.dataset.code = String(code);
    made.title = said;
    return made;
}

/**
 * The nodes of a text, its parentheses in the colours of their depths.
 * @param {string} text
 * @param {number} open how many calls are open before it
 */
export function coloured(text, open) {
    return byDepth(text, open).map(({ text: part, depth }) => (depth
        ? element('span', `paren ${depthClass(depth)}`, part) : document.createTextNode(part)));
}

/**
 * The nodes of pieces.
 * @param {import('./codes.js').Piece[]} pieces
 * @returns {Node[]}
 */
export function nodes(pieces) {
    return pieces.map(({ kind, text, code }) => {
        if (kind === 'text') return document.createTextNode(text);
        if (kind === 'mark') return mark('comma', ',', 'next argument', code);
        const made = element('span', 'escape', text);
        made.dataset.code = String(code);
        return made;
    });
}

/**
 * The nodes of codes.
 * @param {import('./codes.js').Codes} codes
 */
export function nodesOf(codes) {
    return nodes(piecesOf(codes));
}

/**
 * Scrolls a box, and nothing else, so that a part of it can be seen.
 * @param {HTMLElement} box
 * @param {HTMLElement} part
 */
export function reveal(box, part) {
    const [outer, inner] = [box.getBoundingClientRect(), part.getBoundingClientRect()];
    if (inner.top < outer.top) box.scrollTop += inner.top - outer.top - 8;
    else if (inner.bottom > outer.bottom) box.scrollTop += Math.min(
        inner.bottom - outer.bottom + 8, inner.top - outer.top - 8);
}
