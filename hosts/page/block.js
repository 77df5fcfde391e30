/**
 * Draws the cells of the block.
 * @module
 */

import { counted, several } from './codes.js';
import { element, find } from './dom.js';

const PARTS = [
    ['store', 'forms'], ['neutral', 'neutral string'], ['free', 'free'], ['active', 'active string'],
];

/**
 * A bar of the parts, to scale.
 * @param {HTMLElement} bar
 * @param {Record<string, number>} parts
 * @param {number} cells the number of cells that the whole bar represents
 * @param {number} peak
 */
function showBar(bar, parts, cells, peak) {
    const pieces = PARTS.map(([name]) => {
        const piece = element('i', `part-${name}`);
        piece.style.width = `${(100 * parts[name]) / cells}%`;
        return piece;
    });
    const most = element('b', '');
    most.style.left = `${(100 * peak) / cells}%`;
    bar.className = 'bar';
    bar.replaceChildren(...pieces, most);
    const told = PARTS.map(([name, words]) => `${words} ${counted(parts[name])}`).join(', ');
    bar.setAttribute('aria-label', `${several(cells, 'cell')}: ${told}; peak ${counted(peak)}`);
}

/**
 * Shows the block to scale, and how it would be with only the cells that the run needs.
 * @param {Record<string, number>} parts
 * @param {{cells: number, need: number | null, peak: number, least: number}} sizes what the last step needed, if that
 * is known; the peak so far, and that of the run
 */
export function showBlock(parts, { cells, need, peak, least }) {
    const used = cells - parts.free;
    find('cells-used').textContent = `${counted(used)} of ${counted(cells)} in use${
        need === null ? '' : `; the last step needed ${counted(need)}`}`;
    showBar(find('block'), parts, cells, peak);
    const room = Math.max(least, 1);
    find('scale').textContent = `The same in ${several(room, 'cell')}, the least in which this run ends so:`;
    showBar(find('enlarged'), { ...parts, free: Math.max(0, room - used) }, room, peak);
    /** @type {[string, string, number][]} */
    const entries = PARTS.map(([name, words]) => [`part-${name}`, words, parts[name]]);
    entries.push(['part-peak', 'peak', peak]);
    find('legend').replaceChildren(...entries.map(([kind, words, number]) => element(
        'li', '', element('i', kind), `${words} ${counted(number)}`)));
}
