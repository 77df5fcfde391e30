/**
 * The list of what is suspicious in a script, each with a button that shows its place.
 * @module
 */

import { check } from '../js/trac.mjs';
import { bytesOfText } from './boxes.js';
import { several } from './codes.js';
import {
    button, element, find, withBlanks,
} from './dom.js';
import { pause } from './machines.js';

/** The number of steps to examine first; then twice as many, while that is quick, up to a bound. */
const FEWEST_CHECKED = 15;
const MOST_CHECKED = 50000;
/** A look is slow if it takes so many milliseconds more than the quickest one. Each look takes some time for the memory
 * and the text, whatever its steps; on a slow machine that alone is more. */
const QUICK = 10;
/** The browser may have been busy with something else, so a slow look is made again, up to so many times in all. */
const TRIES = 5;
/** The cells of the largest block that is looked at: to clear a larger one takes long. */
const MOST_CLEARED = 2 ** 20;
const MOST_PLACES = 200;
/** The parts of the engine's lines that quote the script: a name, or an argument. */
const AS_WRITTEN = new RegExp('((?<=^in the value of ).*?(?=, column \\d)|(?<=than gaps: ).*(?= has \\d+ gap)'
    + '|(?<=(?:has the name|leaves out the function|no notice of the argument|given, of the form|in the form'
    + '|in the name of a call:|inside longer words:|not performed, of|small letters:) ).*$'
    + '|(?<=ended here; the form ).*(?= was called \\d+ times$))', 's');
/** The engine's lines on the end of a run that a fault ended. */
const OF_THE_END = new RegExp('^(?:in the value of .*?, column \\d+: )?'
    + '(?:the run ended here|this call was open when the run ended)', 's');

/**
 * A place in a text, in the units of a string.
 * @param {string} text
 * @param {number} line from 1
 * @param {number} column from 1, in characters
 */
function placeIn(text, line, column) {
    let place = 0;
    for (let left = line; left > 1; left -= 1) place = text.indexOf('\n', place) + 1;
    for (let left = column; left > 1 && place < text.length && text[place] !== '\n'; left -= 1) {
        place += text.codePointAt(place) > 0xffff ? 2 : 1;
    }
    return place;
}

/** The list, made when a run is shown and when the user pauses while typing. */
export class Warnings {
    /**
     * @param {(place: number) => void} onPlace called with the place in the texts to show
     * @param {(places: number[]) => void} onSpots called with the places of those that are listed, each once, in order
     */
    constructor(onPlace, onSpots) {
        this.onPlace = onPlace;
        this.onSpots = onSpots;
        /** Which look is the last that was asked for. */
        this.looks = 0;
        /** Whether the texts aren't those any more that are looked at. */
        this.isOutdated = false;
    }

    /** Shows nothing. */
    close() {
        this.looks += 1;
        find('suspicions').hidden = true;
        find('warnings').replaceChildren();
        this.onSpots([]);
    }

    /**
     * Lists what is suspicious: examines some steps, and more while that is quick, so the page isn't blocked for long.
     * @param {string} text the script and the further input
     * @param {{cells: number, steps: number}} limits
     */
    async look(text, { cells, steps }) {
        this.looks += 1;
        this.isOutdated = false;
        const look = this.looks;
        const input = bytesOfText(text);
        let quickest = Infinity;
        for (let [most, slow] = [Math.min(FEWEST_CHECKED, steps), 0]; ;) {
            const start = performance.now();
            const { fate, warnings } = await check(input, { cells: Math.min(cells, MOST_CLEARED), steps: most });
            if (look !== this.looks) return;
            const took = performance.now() - start;
            quickest = Math.min(quickest, took);
            const isSlow = took - quickest > QUICK;
            slow = isSlow ? slow + 1 : 0;
            const isAll = fate !== 'steps' || most === steps;
            if (isAll || most === MOST_CHECKED || slow === TRIES) {
                // a fault that comes only from the bounds of this look isn't one of the script
                const isOfScript = isAll && (fate !== 'workspace' || cells <= MOST_CLEARED);
                this.show(text, warnings.filter((each) => isOfScript || !OF_THE_END.test(each.text)),
                    isAll ? Infinity : most);
                return;
            }
            if (!isSlow) most = Math.min(2 * most, steps, MOST_CHECKED);
            await pause();
        }
    }

    /**
     * Shows what was found, and marks it unless the texts are others by now.
     * @param {string} text
     * @param {import('../js/trac.mjs').Warning[]} warnings
     * @param {number} most how many steps were looked at; Infinity for all
     */
    show(text, warnings, most) {
        const listed = warnings.slice(0, MOST_PLACES);
        find('warnings').replaceChildren(...listed.map((warning) => this.item(text, warning)));
        find('suspicions-told').textContent = [
            warnings.length > MOST_PLACES && `The first ${MOST_PLACES} of ${warnings.length}.`,
            most < Infinity && `The first ${several(most, 'step')} were looked at.`,
        ].filter(Boolean).join(' ');
        find('suspicions').hidden = !warnings.length;
        if (this.isOutdated) this.outdate();
        else this.onSpots([...new Set(listed.map(({ line, column }) => placeIn(text, line, column)))]);
    }

    /**
     * @param {string} text
     * @param {import('../js/trac.mjs').Warning} warning
     */
    item(text, { line, column, text: words }) {
        const parts = words.split(AS_WRITTEN)
            .map((part, index) => (index % 2 ? element('q', '', ...withBlanks(part)) : part));
        return element('li', '', button(`Line ${line}, column ${column}`, () => {
            this.onPlace(placeIn(text, line, column));
        }), ' ', ...parts);
    }

    /** Takes the buttons away: the texts aren't those any more that are looked at. */
    outdate() {
        this.isOutdated = true;
        for (const each of find('warnings').querySelectorAll('button')) {
            each.replaceWith(element('span', '', each.textContent ?? ''));
        }
    }
}
