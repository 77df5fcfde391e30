/**
 * How an output differs from the one that is wanted: the first difference in words, and both lines with their blanks
 * and ends drawn.
 * @module
 */

import { counted, several, shortName } from './codes.js';
import { blank, element, find } from './dom.js';
import { withoutEnd } from './trial.js';

/**
 * The first line in which two outputs differ: its text in each, or null if there is no such line; its number; and
 * whether another line follows it.
 * @typedef {{texts: (string | null)[], number: number, follows: boolean[]}} Difference
 */

/**
 * Where an output differs from the wanted one, or null.
 * @param {string} output
 * @param {string} wanted
 * @returns {Difference | null}
 */
export function differenceOf(output, wanted) {
    const both = [output, wanted].map((text) => withoutEnd(text).split('\n'));
    const [lines, others] = both;
    const at = Array.from({ length: Math.max(lines.length, others.length) })
        .findIndex((_, index) => lines[index] !== others[index]);
    if (at < 0) return null;
    return {
        texts: both.map((each) => each[at] ?? null),
        number: at + 1,
        follows: both.map((each) => at + 1 < each.length),
    };
}

/**
 * The place after the additional blanks that a line has at a place, compared with another line; null if the difference
 * isn't only blanks.
 * @param {string[]} one
 * @param {string[]} two
 * @param {number} from
 */
function onlyBlanks(one, two, from) {
    let to = from;
    while (one[to] === ' ') to += 1;
    return to > from && one[to] === two[from] ? to : null;
}

/**
 * How many characters at the ends of two lines are the same, after a place.
 * @param {string[]} one
 * @param {string[]} two
 * @param {number} from
 */
function sameEnd(one, two, from) {
    const most = Math.min(one.length, two.length) - from;
    let left = 0;
    while (left < most && one[one.length - 1 - left] === two[two.length - 1 - left]) left += 1;
    return left;
}

/**
 * A line split where it first differs from another: the part that both begin with, the part that differs, and the rest.
 * @param {string} line
 * @param {string} other
 */
function parted(line, other) {
    const [one, two] = [[...line], [...other]];
    const most = Math.min(one.length, two.length);
    let from = 0;
    while (from < most && one[from] === two[from]) from += 1;
    const to = onlyBlanks(one, two, from) ?? (onlyBlanks(two, one, from) ? from : one.length - sameEnd(one, two, from));
    return { from, front: one.slice(0, from).join(''), own: one.slice(from, to).join(''), end: one.slice(to).join('') };
}

/**
 * A text in a sentence: blanks are counted, others quoted.
 * @param {string} text
 */
function pieceWords(text) {
    if (/^ +$/.test(text)) return text.length === 1 ? 'a blank' : several(text.length, 'blank');
    return `“${shortName(text.replaceAll('\t', '\\t'))}”`;
}

/**
 * A difference in words.
 * @param {Difference} difference
 */
export function differenceWords({ texts: [line, other], number, follows }) {
    if (line === null) return `Not yet: yours ends behind line ${counted(number - 1)}, and another line is wanted.`;
    if (other === null) return `Not yet: yours has more lines than are wanted, from line ${counted(number)} on.`;
    if (!line && number === 1 && !follows[0]) return 'Not yet: yours prints nothing.';
    const { from, own, end } = parted(line, other);
    const missing = parted(other, line).own;
    const isAtEnd = !end && (!own || !missing);
    const place = `${isAtEnd ? 'at the end of' : 'in'} line ${counted(number)}, column ${counted(from + 1)}`;
    if (!missing) return `Not yet: yours has ${pieceWords(own)} more ${place}.`;
    if (!own) return `Not yet: yours lacks ${pieceWords(missing)} ${place}.`;
    return `Not yet: yours has ${pieceWords(own)} in place of ${pieceWords(missing)} ${place}.`;
}

/**
 * The nodes of a text, each blank and tab drawn.
 * @param {string} text
 */
function drawn(text) {
    return text.split(/([ \t])/).map((part, index) => {
        if (index % 2 === 0) return part;
        return part === ' ' ? blank() : element('span', 'escape', '\\t');
    });
}

/**
 * Shows a line of each output, or nothing.
 * @param {Difference | null} difference
 * @param {string} [input] the input that the script had, if it isn't that of the box
 */
export function showDifference(difference, input = undefined) {
    find('difference').hidden = !difference;
    for (const part of [find('tried'), find('tried').previousElementSibling]) part.hidden = input === undefined;
    find('tried').textContent = input ?? '';
    if (!difference) return;
    const { texts, follows } = difference;
    for (const [which, id] of ['yours', 'wanted'].entries()) {
        const text = texts[which];
        const { front, own, end } = parted(text ?? '', texts[1 - which] ?? '');
        find(id).replaceChildren(
            ...(text === null ? [element('span', 'nothing', 'no such line')] : drawn(front)),
            ...(own ? [element('mark', '', ...drawn(own))] : []),
            ...drawn(end),
            ...(follows[which] ? [element('span', 'escape', '↵')] : []),
        );
    }
}
