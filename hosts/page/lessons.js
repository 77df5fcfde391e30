/**
 * The scripts to try: the examples, in the order of a lesson, the exercises, and the table of functions.
 * @module
 */

import { element, find, marked } from './dom.js';
import { Exercises } from './exercises.js';

/**
 * @typedef {{kind: string, words: string}} Cue
 * @typedef {{name: string, says: string, script: string, output: string, cues: Cue[]}} Part
 * @typedef {{name: string, says?: string, script: string}} Example
 * @typedef {{calls: string, value: string, effect: string, needs: string, script: string}} Entry
 */

/** The examples, the exercises and the functions. */
export class Lessons {
    /** @param {(texts: {script: string, input: string}) => void} fill fills the boxes */
    constructor(fill) {
        this.fill = fill;
        const { lesson, examples, exercises, functions } = JSON.parse(find('lessons').textContent);
        /** @type {Part[]} */
        this.lesson = lesson;
        /** @type {Example[]} */
        this.examples = examples;
        this.exercises = new Exercises(exercises, (texts) => {
            this.leave();
            this.fill(texts);
        });
        this.addChoices();
        this.addFunctions(functions);
        find('example').addEventListener('change', () => this.choose(find('example').value));
        find('exercise').addEventListener('change', () => this.exercises.choose(find('exercise').value));
    }

    /** The script to begin with. */
    get first() {
        return this.lesson[0].name;
    }

    addChoices() {
        /** @type {[string, Example[]][]} */
        const groups = [['A lesson', this.lesson], ['Larger scripts', this.examples]];
        for (const [label, examples] of groups) {
            const group = /** @type {HTMLOptGroupElement} */ (element('optgroup', ''));
            group.label = label;
            group.append(...examples.map(({ name }) => element('option', '', name)));
            find('example').append(group);
        }
    }

    /** @param {Entry[]} functions */
    addFunctions(functions) {
        find('functions').append(...functions.map(({ calls, value, effect, needs, script }) => {
            const attempt = element('button', 'small', 'Try');
            attempt.setAttribute('type', 'button');
            attempt.setAttribute('aria-label', `Try ${calls.replaceAll('`', '')}`);
            attempt.addEventListener('click', () => {
                this.leave();
                this.fill({ script, input: '' });
                find('script').focus();
            });
            return element('tr', '', ...[calls, value, effect, needs].map(
                (text) => element('td', '', ...marked(text))), element('td', '', attempt));
        }));
    }

    /**
     * Puts an example into the boxes.
     * @param {string} name
     */
    choose(name) {
        this.exercises.choose('');
        this.leave();
        const chosen = [...this.lesson, ...this.examples].find((example) => example.name === name);
        if (chosen) this.fill({ script: chosen.script, input: '' });
        find('example').value = name;
        find('says').textContent = chosen?.says ?? '';
    }

    /**
     * Notes which example is in the boxes, if one is.
     * @param {{script: string, input: string}} texts
     */
    recognise({ script, input }) {
        const known = [...this.lesson, ...this.examples].find((example) => example.script === script && !input);
        find('example').value = known?.name ?? '';
        find('says').textContent = known?.says ?? '';
    }

    /** Notes that the script is no longer one of the examples. */
    leave() {
        find('example').value = '';
        find('says').textContent = '';
    }
}
