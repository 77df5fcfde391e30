/**
 * The boxes of the script and of the input after it: their texts as bytes, and the marks in them; they make sure that
 * nothing typed is lost.
 * @module
 */

import { byDepth, openAt, partnerOf } from './codes.js';
import { depthClass, element, find } from './dom.js';

const MOST_COLOURED = 20000;
// Of a longer text the part in view is coloured: a key takes no longer then.
const MOST_IN_COLOUR = 1000;
// How many characters stand in a square as wide as the type is large, and some more.
const CHARACTERS_IN_SQUARE = 1.2;
const MOST_ASIDE = 20;
// For how many milliseconds nothing is typed before a long text is kept.
const REST = 1000;
// Of a long text so much of a part is marked: what stands behind it needs no layout then.
const MOST_MARKED = 4000;
const PIECE_READ = 256;
// The most bytes of a character in UTF-8.
const LONGEST_WIDTH = 4;
const STORE = 'trac-t64-page';
/** What is highlighted as scanned now, in both boxes; none in a browser without highlights. */
const HERE = 'highlights' in CSS ? new /** @type {any} */ (window).Highlight() : null;
if (HERE) /** @type {any} */ (CSS).highlights.set('here', HERE);
const strict = new TextDecoder('utf-8', { fatal: true, ignoreBOM: true });

/** @typedef {{script: string, input: string}} Texts */

/** @typedef {{from: number, to: number}} Stretch a part of a text, or of both one behind another */

/**
 * The bytes of a text of a box, in UTF-8. A byte that can't stand in a box, as it is no UTF-8 or a
 * carriage return, stands there as a low surrogate by itself.
 * @param {string} text
 */
export function bytesOfText(text) {
    const encoder = new TextEncoder();
    const parts = text.split(/([\udc00-\udcff])/u);
    return joinedRows(parts.map((part, index) => (index % 2
        ? Uint8Array.of(part.charCodeAt(0) - 0xdc00) : encoder.encode(part))));
}

/**
 * Rows of bytes as one.
 * @param {Uint8Array[]} rows
 */
export function joinedRows(rows) {
    const bytes = new Uint8Array(rows.reduce((sum, { length }) => sum + length, 0));
    let place = 0;
    for (const row of rows) {
        bytes.set(row, place);
        place += row.length;
    }
    return bytes;
}

/**
 * The text of a box that has these bytes.
 * @param {Uint8Array} bytes
 */
export function textOfBytes(bytes) {
    const text = wholeText(bytes) ?? [...partsOf(bytes)].join('');
    return text.replaceAll('\r', '\udc0d');
}

/**
 * Bytes read as UTF-8, or null where they aren't that.
 * @param {Uint8Array} bytes
 */
function wholeText(bytes) {
    try {
        return strict.decode(bytes);
    } catch {
        return null;
    }
}

/**
 * Bytes in pieces that cut no character: those in UTF-8 at once, others by their characters.
 * @param {Uint8Array} bytes
 */
function* partsOf(bytes) {
    for (let from = 0; from < bytes.length;) {
        let to = Math.min(bytes.length, from + PIECE_READ);
        while (to < bytes.length && (bytes[to] & 0xc0) === 0x80) to += 1;
        const piece = bytes.subarray(from, to);
        const text = wholeText(piece);
        if (text === null) yield* charactersOf(piece);
        else yield text;
        from = to;
    }
}

/**
 * The bytes of the character of which a byte is a part, or that byte alone.
 * @param {Uint8Array} bytes
 * @param {number} place
 * @returns {Stretch}
 */
export function bytesAround(bytes, place) {
    for (let from = place; from > place - LONGEST_WIDTH && from >= 0; from -= 1) {
        for (let to = place + 1; to <= Math.min(bytes.length, from + LONGEST_WIDTH); to += 1) {
            const text = wholeText(bytes.subarray(from, to));
            if (text !== null) return [...text].length === 1 ? { from, to } : { from: place, to: place + 1 };
        }
    }
    return { from: place, to: place + 1 };
}

/**
 * The characters of bytes, and each byte that is part of none.
 * @param {Uint8Array} bytes
 */
function* charactersOf(bytes) {
    for (let at = 0; at < bytes.length;) {
        const width = [1, 2, 3, 4].find((count) => wholeText(bytes.subarray(at, at + count)) !== null);
        yield width ? wholeText(bytes.subarray(at, at + width)) : String.fromCharCode(0xdc00 + bytes[at]);
        at += width ?? 1;
    }
}

/** A box and the sheet under it, on which its parentheses are coloured and parts of it are marked. */
class Box {
    /** @param {string} id */
    constructor(id) {
        this.box = find(id);
        this.sheet = find(`${id}-marks`);
        /** @type {{from: number, to: number, isFault: boolean} | null} */
        this.part = null;
        /** @type {Stretch | null} what is scanned now */
        this.here = null;
        /** @type {Range | null} the same on the sheet */
        this.range = null;
        /** How much of the text is on the sheet. */
        this.end = 0;
        /** @type {number[]} the places of suspicious characters, in order */
        this.spots = [];
        /** The text that the sheet was drawn for. */
        this.drawn = '';
        /** Around which place a long text is coloured, and which part of it. */
        this.centre = 0;
        this.coloured = { from: 0, to: 0 };
        /** @type {Map<number, HTMLElement>} */
        this.parens = new Map();
        this.box.addEventListener('scroll', () => this.followView());
        new ResizeObserver(() => this.followView()).observe(this.box);
        document.addEventListener('selectionchange', () => this.showPair());
    }

    get text() {
        return this.box.value;
    }

    /**
     * Puts a text into the box, so that the browser's own undo brings the former one back; it tells of each line.
     * @param {string} text
     */
    put(text) {
        if (text === this.text) return;
        const at = /** @type {HTMLElement} */ (document.activeElement);
        this.box.focus({ preventScroll: true });
        this.box.select();
        if (text.length < MOST_COLOURED && document.activeElement === this.box) {
            document.execCommand(text ? 'insertText' : 'delete', false, text);
        }
        if (this.text !== text) this.box.value = text;
        this.box.setSelectionRange(0, 0);
        this.box.scrollTop = 0;
        this.box.blur();
        at.focus({ preventScroll: true });
        this.refresh();
    }

    /**
     * Marks a part of the text, and what is scanned now, and scrolls the box to that, or else to the part.
     * @param {{from: number, to: number, isFault: boolean} | null} part
     * @param {Stretch | null} here
     */
    mark(part, here) {
        this.here = here && here.from < here.to ? here : null;
        const wanted = part && part.from < part.to ? part : null;
        const isDrawn = JSON.stringify(wanted) === JSON.stringify(this.part) && (here?.to ?? 0) <= this.end;
        this.part = wanted;
        if (isDrawn) this.showHere();
        else this.draw();
        const place = this.placeOfMark();
        // where one types the cursor stays in view
        if (place === null || document.activeElement === this.box) return;
        const { scrollTop, clientHeight } = this.box;
        if (place < scrollTop || place > scrollTop + clientHeight - 48) {
            this.box.scrollTop = place - clientHeight / 3;
        }
        this.scrollUnder();
    }

    /** How far below the begin of the text stands what is marked, or null where nothing is. */
    placeOfMark() {
        const marked = this.range ?? this.sheet.querySelector('mark');
        const { top } = this.sheet.getBoundingClientRect();
        return marked && marked.getBoundingClientRect().top - top + this.sheet.scrollTop;
    }

    /** Highlights what is scanned now, which changes nothing of the layout of a long text. */
    showHere() {
        if (this.range) HERE?.delete(this.range);
        this.range = this.here && rangeOf(this.sheet, this.here);
        if (this.range) HERE?.add(this.range);
        this.box.parentElement.classList.toggle('scanning', Boolean(this.range));
    }

    /**
     * Marks suspicious characters, and nothing else as such.
     * @param {number[]} places in order
     */
    spot(places) {
        if (!places.length && !this.spots.length) return;
        this.spots = places;
        this.draw();
    }

    /** Draws another text than the one that was drawn; what was marked in that is not marked in this. */
    refresh() {
        if (this.text === this.drawn && !this.part && !this.here) return;
        this.part = null;
        this.here = null;
        this.spots = [];
        this.centre = this.box.selectionStart;
        this.draw();
    }

    /** @param {boolean} [isWhole] whether the sheet shows a long text too, as it does on paper */
    draw(isWhole = false) {
        const { text, part } = this;
        const isColoured = text.length <= MOST_COLOURED;
        this.drawn = text;
        this.parens.clear();
        this.box.parentElement.classList.toggle('coloured', isColoured);
        const isCut = !isColoured && !isWhole;
        this.end = isCut ? this.endOfDrawn() : text.length;
        const [from, to] = part ? [part.from, Math.min(part.to, this.end)] : [text.length, text.length];
        const parts = isColoured ? this.parts(text, isWhole) : [{ node: text.slice(0, this.end), at: 0 }];
        const [front, middle, back] = cut(parts, from, to);
        const marked = part ? [element('mark', part.isFault ? 'fault' : '', ...middle)] : middle;
        if (!isCut) this.sheet.replaceChildren(...front, ...marked, ...back, '\n');
        else if (this.end) this.sheet.replaceChildren(...front, ...marked, ...back, this.rest());
        else this.sheet.replaceChildren();
        this.showHere();
        this.showPair();
        this.scrollUnder();
    }

    /** How much of a long text is drawn: that in front of what is marked, and that with a part of it. */
    endOfDrawn() {
        const { part, here } = this;
        if (!part) return here?.to ?? 0;
        return Math.max(here?.to ?? 0, Math.min(part.to, Math.max(part.from, here?.from ?? 0) + MOST_MARKED));
    }

    /** What stands on the sheet in place of the text behind a marked part: it scrolls as far as the box. */
    rest() {
        const made = element('div', '');
        made.style.setProperty('height', `${this.box.scrollHeight}px`);
        return made;
    }

    /**
     * The parts of a text: those around the cursor in the colours of their depths, and what is suspicious marked.
     * @param {string} text
     * @param {boolean} isWhole whether all of it is coloured
     * @returns {{node: Node | string, at: number}[]}
     */
    parts(text, isWhole) {
        const isShort = isWhole || text.length <= MOST_IN_COLOUR;
        this.coloured = isShort ? { from: 0, to: text.length } : this.around(this.centre);
        const { from, to } = this.coloured;
        const inside = byDepth(text.slice(from, to), openAt(text, from)).map(({ text: part, depth, at }) => {
            if (!depth) return { node: part, at: from + at };
            const node = element('span', `paren ${depthClass(depth)}`, part);
            this.parens.set(from + at, node);
            return { node, at: from + at };
        });
        return [{ node: text.slice(0, from), at: 0 }, ...spotted(inside, this.spots), { node: text.slice(to), at: to }];
    }

    /**
     * As much of the text to either side of a place as the box can show.
     * @param {number} place
     */
    around(place) {
        const { clientWidth, clientHeight } = this.box;
        const size = parseFloat(getComputedStyle(this.box).fontSize);
        const room = Math.ceil((clientWidth / size) * (clientHeight / size) * CHARACTERS_IN_SQUARE);
        return { from: Math.max(0, place - room), to: Math.min(this.text.length, place + room) };
    }

    /** Keeps the sheet under the box, and colours what has come into view. */
    followView() {
        this.scrollUnder();
        const { length } = this.text;
        const { from, to } = this.coloured;
        if (to - from >= length || length > MOST_COLOURED || this.text !== this.drawn) return;
        const [first, last] = [0, this.box.clientHeight].map((height) => this.placeAt(height));
        if (first >= from && last <= to) return;
        this.centre = (first + last) >> 1;
        this.draw();
    }

    /**
     * The place of the first character that doesn't end above a height of the box.
     * @param {number} height
     */
    placeAt(height) {
        const texts = textsOf(this.sheet);
        const one = document.createRange();
        const { top } = this.sheet.getBoundingClientRect();
        let [low, high] = [0, this.text.length];
        while (low < high) {
            const middle = (low + high) >> 1;
            const next = texts.findIndex(({ at }) => at > middle);
            const { node, at } = texts[(next < 0 ? texts.length : next) - 1];
            one.setStart(node, middle - at);
            one.setEnd(node, middle - at + 1);
            if (one.getBoundingClientRect().bottom - top <= height) low = middle + 1;
            else high = middle;
        }
        return low;
    }

    /** Shows the parenthesis at the cursor, and the one that belongs to it. */
    showPair() {
        for (const old of this.sheet.querySelectorAll('.pair, .single')) {
            old.classList.remove('pair', 'single');
        }
        const { selectionStart, selectionEnd } = this.box;
        if (document.activeElement !== this.box || selectionStart !== selectionEnd) return;
        const place = [selectionStart - 1, selectionStart].find((at) => this.parens.has(at));
        if (place === undefined) return;
        const partner = partnerOf(this.text, place);
        const kind = partner < 0 ? 'single' : 'pair';
        for (const at of [place, partner]) this.parens.get(at)?.classList.add(kind);
    }

    scrollUnder() {
        // an empty sheet needs no layout of a long text
        if (this.sheet.firstChild) this.sheet.scrollTop = this.box.scrollTop;
    }
}

/**
 * The text nodes of an element, and in front of how much text each stands.
 * @param {HTMLElement} whole
 */
function textsOf(whole) {
    const walk = document.createTreeWalker(whole, NodeFilter.SHOW_TEXT);
    /** @type {{node: Text, at: number}[]} */
    const found = [];
    for (let at = 0; walk.nextNode(); at += found[found.length - 1].node.length) {
        found.push({ node: /** @type {Text} */ (walk.currentNode), at });
    }
    return found;
}

/**
 * A part of a text, with the characters at some places marked.
 * @param {string} text
 * @param {number} at where it stands
 * @param {number[]} spots places in it, in order
 */
function withSpots(text, at, spots) {
    /** @type {{node: Node | string, at: number}[]} */
    const made = [];
    let from = 0;
    for (const place of spots) {
        const letter = String.fromCodePoint(text.codePointAt(place - at));
        made.push({ node: text.slice(from, place - at), at: at + from });
        made.push({ node: element('span', 'spot', letter), at: place });
        from = place - at + letter.length;
    }
    return [...made, { node: text.slice(from), at: at + from }];
}

/**
 * Parts of a text, with the characters at some places marked as suspicious.
 * @param {{node: HTMLElement | string, at: number}[]} parts
 * @param {number[]} spots places in the whole text, in order
 */
function spotted(parts, spots) {
    if (!spots.length) return parts;
    return parts.flatMap(({ node, at }) => {
        if (typeof node === 'string') {
            return withSpots(node, at, spots.filter((place) => place >= at && place < at + node.length));
        }
        if (spots.includes(at)) node.classList.add('spot');
        return [{ node, at }];
    });
}

/**
 * Parts of a text as the nodes in front of a place, those up to another, and those behind.
 * @param {{node: Node | string, at: number}[]} parts
 * @param {number} from
 * @param {number} to
 * @returns {(Node | string)[][]}
 */
function cut(parts, from, to) {
    /** @type {(Node | string)[][]} */
    const three = [[], [], []];
    for (const { node, at } of parts) {
        if (typeof node !== 'string') {
            three[at < from ? 0 : at < to ? 1 : 2].push(node);
        } else {
            const [first, second] = [Math.max(0, from - at), Math.max(0, to - at)];
            three[0].push(node.slice(0, first));
            three[1].push(node.slice(first, second));
            three[2].push(node.slice(Math.max(first, second)));
        }
    }
    return three.map((nodes) => nodes.filter((node) => node !== ''));
}

/**
 * The range of a stretch of a text that is drawn on a sheet, or null where it isn't drawn.
 * @param {HTMLElement} sheet
 * @param {Stretch} stretch
 */
function rangeOf(sheet, { from, to }) {
    const texts = textsOf(sheet);
    const within = (/** @type {number} */ place) => texts.find(({ node, at }) => place <= at + node.length);
    const [first, last] = [within(from + 1), within(to)];
    if (!first || !last) return null;
    const range = document.createRange();
    range.setStart(first.node, from - first.at);
    range.setEnd(last.node, to - last.at);
    return range;
}

/**
 * What of a stretch of both texts is in a box.
 * @param {Stretch} stretch
 * @param {number} start where the text of the box begins
 * @param {number} length
 */
function within({ from, to }, start, length) {
    return { from: Math.max(0, Math.min(from - start, length)), to: Math.max(0, Math.min(to - start, length)) };
}

/** Both boxes. */
export class Boxes {
    /** @param {() => void} onChange told where a text changes, whoever changes it */
    constructor(onChange) {
        this.boxes = { script: new Box('script'), input: new Box('input') };
        this.onChange = onChange;
        /** @type {Texts[]} what was typed before other texts came */
        this.aside = [];
        /** @type {Texts} */
        this.filled = { script: '', input: '' };
        this.isFilling = false;
        /** @type {number | undefined} */
        this.saving = undefined;
        for (const { box } of Object.values(this.boxes)) {
            box.addEventListener('input', () => this.isFilling || this.changed());
        }
        for (const name of ['cells', 'steps']) find(name).addEventListener('input', () => this.save());
        find('bring-back').addEventListener('click', () => this.bringBack());
        window.addEventListener('pagehide', () => this.save());
    }

    /** @returns {Texts} */
    get texts() {
        return { script: this.boxes.script.text, input: this.boxes.input.text };
    }

    /** @param {boolean} isWhole */
    drawWhole(isWhole) {
        for (const box of Object.values(this.boxes)) box.draw(isWhole);
    }

    /** Takes note of another text. */
    changed() {
        for (const box of Object.values(this.boxes)) box.refresh();
        this.onChange();
        this.saveSoon();
    }

    /** Keeps all texts: long ones when nothing is typed for a while, as a key would take longer otherwise. */
    saveSoon() {
        window.clearTimeout(this.saving);
        const { script, input } = this.texts;
        if (script.length + input.length <= MOST_COLOURED) this.save();
        else this.saving = window.setTimeout(() => this.save(), REST);
    }

    /**
     * Fills the boxes. What was typed is put aside.
     * @param {Texts} texts
     */
    fill(texts) {
        const { script, input } = this.texts;
        const isTyped = script !== this.filled.script || input !== this.filled.input;
        const isOther = script !== texts.script || input !== texts.input;
        if (isTyped && isOther && (script || input)) this.putAside({ script, input });
        this.filled = texts;
        find('more').open = texts.input !== '' || find('more').open;
        this.isFilling = true;
        this.boxes.script.put(texts.script);
        this.boxes.input.put(texts.input);
        this.isFilling = false;
        this.filled = this.texts;
        this.changed();
        find('more').open = texts.input !== '';
    }

    /** @param {Texts} texts */
    putAside(texts) {
        this.aside.push(texts);
        if (this.aside.length > MOST_ASIDE) this.aside.shift();
    }

    /** Puts what was typed last into the boxes again; what stands there may be brought back in turn. */
    bringBack() {
        const texts = this.aside.pop();
        if (!texts) return;
        this.fill(texts);
        this.filled = { script: '', input: '' };
        this.save();
        find('script').focus();
    }

    /** Keeps all texts over a reload, where the browser has a place for them. */
    save() {
        window.clearTimeout(this.saving);
        find('bring-back').hidden = !this.aside.length;
        const { aside, filled, texts } = this;
        const [cells, steps] = [find('cells').value, find('steps').value];
        const isTyped = texts.script !== filled.script || texts.input !== filled.input;
        try {
            window.localStorage.setItem(STORE, JSON.stringify(
                { texts, isTyped, aside, cells, steps, hash: address() }));
        } catch {
            // without a place in the browser nothing is kept
        }
    }

    /**
     * Takes over what was kept. The texts are put into the boxes where the address is the same as it was
     * then; else those that were typed are put aside.
     * @returns {boolean} whether the boxes are filled
     */
    load() {
        const kept = stored();
        if (!kept) return false;
        this.aside = kept.aside;
        if (kept.hash !== address()) {
            if (kept.isTyped) this.putAside(kept.texts);
            return false;
        }
        this.fill(kept.texts);
        if (kept.isTyped) this.filled = { script: '', input: '' };
        for (const name of ['cells', 'steps']) find(name).value = kept[name];
        this.save();
        return true;
    }

    /**
     * Marks a part of the texts, of which that of the script comes first, and what is scanned now.
     * @param {Stretch & {isFault: boolean} | null} part
     * @param {Stretch | null} [here]
     */
    mark(part, here = null) {
        const { script, input } = this.boxes;
        const first = script.text.length;
        for (const [box, start] of /** @type {const} */ ([[script, 0], [input, first]])) {
            const { length } = box.text;
            const inBox = part && { ...within(part, start, length), isFault: part.isFault };
            box.mark(inBox, here && within(here, start, length));
        }
    }

    /**
     * Marks suspicious characters of the texts.
     * @param {number[]} places in order
     */
    spot(places) {
        const { script, input } = this.boxes;
        const first = script.text.length;
        script.spot(places.filter((place) => place < first));
        input.spot(places.filter((place) => place >= first).map((place) => place - first));
    }

    /**
     * Selects a part of the texts, and puts the cursor there.
     * @param {{from: number, to: number}} part
     */
    select({ from, to }) {
        const first = this.boxes.script.text.length;
        const isScript = from < first;
        const { box } = isScript ? this.boxes.script : this.boxes.input;
        if (!isScript) find('more').open = true;
        box.focus({ preventScroll: true });
        box.setSelectionRange(isScript ? from : from - first, isScript ? Math.min(to, first) : to - first);
        box.scrollIntoView({ block: 'nearest' });
    }
}

/** What the address says beside the place of the page. */
function address() {
    return window.location.search + window.location.hash;
}

/** What was kept in the browser, or null where that is nothing of this page. */
function stored() {
    try {
        const kept = JSON.parse(window.localStorage.getItem(STORE) ?? 'null');
        const isGood = (/** @type {any} */ texts) => typeof texts?.script === 'string'
            && typeof texts?.input === 'string';
        return isGood(kept?.texts) && Array.isArray(kept.aside) && kept.aside.every(isGood) ? kept : null;
    } catch {
        return null;
    }
}
