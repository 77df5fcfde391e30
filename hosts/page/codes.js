/**
 * How characters, marks and rules are shown. Nothing here touches the document.
 * @module
 */

/** The marks in the neutral string. */
export const ACTIVE_CALL = 256;
export const NEUTRAL_CALL = 257;

/**
 * What each rule of scanning does.
 * @type {Record<string, string>}
 */
export const RULES = {
    idling: 'The active string is empty: the idling procedure #(ps,#(rs)) is loaded, '
        + 'and the neutral string is cleared.',
    layout: 'A tab, a line feed or a carriage return is deleted.',
    protection: 'The text up to the matching right parenthesis is taken over unscanned, '
        + 'and both parentheses are deleted.',
    argument: 'The comma is deleted, and a new argument of the call begins.',
    'active call': 'An active call is opened: its value will be scanned again.',
    'neutral call': 'A neutral call is opened: its value will not be scanned again.',
    'number sign': 'The number sign opens no call here: it is taken over as it stands.',
    'end of call': 'The innermost open call is performed.',
    character: 'The character is taken over as it stands.',
};

const LONGEST_RUN = 4096;
/** The most bytes of a character in UTF-8. */
const LONGEST = 4;
/** Of how many characters a line is made at most. */
export const MOST_IN_LINE = 400;
/** The first codes of a row, as many as a line shows, and one more code if there are more. */
export const FRONT_OF_LINE = MOST_IN_LINE + 1;
/** Of how many arguments of a call the words are read at most: each is looked for from the first one on. */
export const MOST_ARGUMENTS = 100;
const NAMED = new Map([[9, '\\t'], [10, '\\n'], [13, '\\r']]);
const HIDDEN = /[\p{Cc}\p{Cf}\p{Co}\p{Cn}\p{Cs}\p{Zl}\p{Zp}]/u;
const NUMBERS = new Intl.NumberFormat('en-US');
const decoder = new TextDecoder('utf-8', { fatal: true, ignoreBOM: true });
const letters = new TextDecoder('latin1');

/**
 * The length in bytes of the UTF-8 character that begins with this byte, or 1 if no character does.
 * @param {number} byte
 */
function widthOf(byte) {
    if (byte >= 0xc2 && byte <= 0xdf) return 2;
    if (byte >= 0xe0 && byte <= 0xef) return 3;
    return byte >= 0xf0 && byte <= 0xf4 ? 4 : 1;
}

/**
 * The visible character that begins at a place, or null if no visible character does.
 * @param {Codes} codes
 * @param {number} place
 * @param {Set<number>} stops places that it may not reach over
 */
function characterAt(codes, place, stops) {
    const width = widthOf(codes[place]);
    const bytes = Array.from(codes.subarray(place, place + width));
    if (bytes.some((code, at) => code > 255 || (at > 0 && stops.has(place + at)))) return null;
    try {
        const text = decoder.decode(Uint8Array.from(bytes));
        return HIDDEN.test(text) ? null : { text, width };
    } catch {
        return null;
    }
}

/**
 * The visible character that a code is a part of, or that code alone.
 * @param {Codes} codes
 * @param {number} place
 * @returns {{from: number, to: number}}
 */
export function characterAround(codes, place) {
    for (let from = place; from > place - LONGEST && codes[from] < 256; from -= 1) {
        const to = from + (characterAt(codes, from, new Set())?.width ?? 0);
        if (to > place) return { from, to };
    }
    return { from: place, to: place + 1 };
}

/**
 * A byte that is no visible character, as it is written.
 * @param {number} byte
 */
function escaped(byte) {
    return NAMED.get(byte) ?? `\\x${byte.toString(16).padStart(2, '0')}`;
}

/**
 * How many characters of plain ASCII there are from a place on, up to a stop.
 * @param {Codes} codes
 * @param {number} place
 * @param {Set<number>} stops
 */
function plainLength(codes, place, stops) {
    let to = place;
    const end = Math.min(codes.length, place + LONGEST_RUN);
    while (to < end && codes[to] >= 32 && codes[to] < 127 && !(to > place && stops.has(to))) to += 1;
    return to - place;
}

/**
 * The visible character at a place, or null if there is none.
 * @param {Codes} codes
 * @param {number} place
 * @param {Set<number>} stops
 */
function visibleAt(codes, place, stops) {
    const width = plainLength(codes, place, stops);
    if (!width) return codes[place] > 255 ? null : characterAt(codes, place, stops);
    return { text: String.fromCharCode(...codes.subarray(place, place + width)), width };
}

/**
 * A row of bytes, or of codes.
 * @typedef {Uint8Array | Uint32Array} Codes
 */

/**
 * A part of what is shown: text, an escaped byte, or a code above 255.
 * @typedef {{kind: 'text' | 'escape' | 'mark', text: string, code: number, at: number}} Piece
 */

/**
 * The pieces of a row of codes: what is visible in one piece, other bytes escaped, UTF-8 as such.
 * @param {Codes} codes
 * @param {Iterable<number>} [breaks] places at which a piece must begin, in order
 * @returns {Piece[]}
 */
export function piecesOf(codes, breaks = []) {
    /** @type {Piece[]} */
    const pieces = [];
    const stops = new Set(breaks);
    let open = null;
    for (let at = 0; at < codes.length;) {
        const code = codes[at];
        const found = visibleAt(codes, at, stops);
        if (found && open && !stops.has(at)) {
            open.text += found.text;
        } else if (found) {
            open = /** @type {Piece} */ ({ kind: 'text', text: found.text, code, at });
            pieces.push(open);
        } else {
            open = null;
            const kind = code > 255 ? 'mark' : 'escape';
            pieces.push({ kind, text: kind === 'mark' ? '' : escaped(code), code, at });
        }
        at += found ? found.width : 1;
    }
    return pieces;
}

/**
 * Bytes as one text, with those that are no visible character escaped, but line feeds and tabs left.
 * @param {Uint8Array} bytes
 */
export function plainText(bytes) {
    return piecesOf(bytes)
        .map(({ code, kind, text }) => (kind === 'escape' && (code === 9 || code === 10)
            ? String.fromCharCode(code) : text))
        .join('');
}

/**
 * The name of the call that a machine's next step performs, as a line. Null if that step performs no call.
 * @param {import('../js/trac.mjs').Session} machine
 */
export function nameAhead(machine) {
    return machine.argumentCount() ? lineOf(machine.argument(0, FRONT_OF_LINE)) : null;
}

/**
 * The call that a machine's next step performs: its mark, the place of the mark, the number of arguments after the
 * name, and the first of these as lines, after the name. Null if that step performs no call.
 * @param {import('../js/trac.mjs').Session} machine
 */
export function callAhead(machine) {
    const count = machine.argumentCount();
    if (!count) return null;
    const [place] = machine.calls(1);
    const [mark] = machine.neutralPart(place, 1);
    const words = Array.from({ length: Math.min(count, MOST_ARGUMENTS) },
        (_, which) => lineOf(machine.argument(which, FRONT_OF_LINE)));
    if (count > MOST_ARGUMENTS) words.push('…');
    return { mark, place, given: count - 1, words };
}

/**
 * Whether two rows have the same codes.
 * @param {Codes} one
 * @param {Codes} other
 */
export function isSameRow(one, other) {
    let at = 0;
    while (at < one.length && one[at] === other[at]) at += 1;
    return at === one.length && at === other.length;
}

/**
 * The name of a form as a text that no other name has.
 * @param {Uint8Array} name
 */
export function nameKey(name) {
    return letters.decode(name);
}

/**
 * The first codes of a row as one line, in which everything but visible characters is escaped.
 * @param {Codes} codes
 */
export function lineOf(codes) {
    const line = piecesOf(codes.subarray(0, MOST_IN_LINE)).map(({ text }) => text).join('');
    return codes.length > MOST_IN_LINE ? `${line}…` : line;
}

/**
 * A text, or its beginning if it is long.
 * @param {string} text
 */
export function shortName(text) {
    return text.length > 40 ? `${text.slice(0, 40)}…` : text;
}

/**
 * A text split at its parentheses, each with the depth of the call or the text that it belongs to.
 * @param {string} text
 * @param {number} [open] how many are open before the text
 * @returns {{text: string, depth: number, at: number}[]} the depth is 0 if the text is no parenthesis
 */
export function byDepth(text, open = 0) {
    const parts = [];
    let depth = open;
    for (const { 0: part, index } of text.matchAll(/[()]|[^()]+/g)) {
        if (part === '(') depth += 1;
        parts.push({ text: part, depth: part === '(' || part === ')' ? Math.max(0, depth) : 0, at: index });
        if (part === ')') depth = Math.max(0, depth - 1);
    }
    return parts;
}

/**
 * How many parentheses are open before a place in a text.
 * @param {string} text
 * @param {number} place
 * @param {number} [open] how many are open before the text
 */
export function openAt(text, place, open = 0) {
    let depth = open;
    for (let at = 0; at < place; at += 1) {
        if (text[at] === '(') depth += 1;
        else if (text[at] === ')') depth = Math.max(0, depth - 1);
    }
    return depth;
}

/**
 * The place of the parenthesis that matches the one at a place, or -1.
 * @param {string} text
 * @param {number} place
 */
export function partnerOf(text, place) {
    const way = text[place] === '(' ? 1 : -1;
    let depth = 0;
    for (let at = place; at >= 0 && at < text.length; at += way) {
        if (text[at] === '(') depth += way;
        if (text[at] === ')') depth -= way;
        if (depth === 0) return at;
    }
    return -1;
}

/**
 * A number with its thousands parted.
 * @param {number} number
 */
export function counted(number) {
    return NUMBERS.format(number);
}

/**
 * A number of things, with their word.
 * @param {number} number
 * @param {string} word
 */
export function several(number, word) {
    return `${counted(number)} ${word}${number === 1 ? '' : 's'}`;
}
