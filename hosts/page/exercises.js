/**
 * The exercises: their words, the trial of a script, a hint, and a solution.
 * @module
 */

import { differenceOf, differenceWords, showDifference } from './difference.js';
import {
    element, find, marked, withBlanks,
} from './dom.js';
import { Trial, endsWell } from './trial.js';

/**
 * @typedef {{input?: string, swap?: string[], output: string}} Case
 * @typedef {{name: string, task: string[], script: string, input: string, output: string, hint: string,
 * solution: string, why: string, cases: Case[], needs?: string[], constant?: string[]}} Exercise
 */

/** The list of exercises, and the one that was chosen. */
export class Exercises {
    /**
     * @param {Exercise[]} all
     * @param {(texts: {script: string, input: string}) => void} fill fills the boxes
     */
    constructor(all, fill) {
        this.all = all;
        this.fill = fill;
        /** @type {Exercise | null} */
        this.chosen = null;
        this.trying = new AbortController();
        find('exercise').append(...all.map(({ name }) => element('option', '', name)));
        find('hint').addEventListener('click', () => this.showHint());
        find('solution').addEventListener('click', () => this.showSolution());
        find('use-solution').addEventListener('click', () => {
            this.fill({ script: this.chosen.solution, input: this.chosen.input });
        });
    }

    /**
     * Shows an exercise, or none.
     * @param {string} name
     */
    choose(name) {
        this.chosen = this.all.find((exercise) => exercise.name === name) ?? null;
        find('exercise').value = name;
        find('task').hidden = !this.chosen;
        this.forgetVerdict();
        if (!this.chosen) return;
        const { task, script, input, output } = this.chosen;
        find('task-words').replaceChildren(...task.map((part) => (part.startsWith('#(')
            ? element('pre', '', part) : element('p', '', ...marked(part)))));
        find('task-input').textContent = input;
        find('task-input').parentElement.hidden = !input;
        find('task-output').textContent = output;
        find('hint-words').textContent = '';
        for (const id of ['solution', 'solved']) find(id).hidden = true;
        this.fill({ script, input });
    }

    /** Shows the hint; the solution can be asked for then. */
    showHint() {
        find('hint-words').replaceChildren(...marked(this.chosen.hint));
        find('solution').hidden = false;
    }

    /** Shows a solution, and why it is so. */
    showSolution() {
        find('solution-script').textContent = this.chosen.solution;
        find('solution-why').replaceChildren(...marked(this.chosen.why));
        find('solved').hidden = false;
    }

    /**
     * Says whether a script prints what the exercise wants, also with other inputs and in the way that the exercise
     * asks for, and if not, where it differs.
     * @param {string} script
     * @param {string} output what its run printed
     * @param {string} fate how that ended
     */
    async check(script, output, fate) {
        this.forgetVerdict();
        if (!this.chosen) return;
        const difference = differenceOf(output, this.chosen.output);
        if (difference) this.say(differenceWords(difference), difference);
        else if (!endsWell(fate)) this.say('Not yet: yours prints what is wanted, but doesn’t end by itself.');
        else await this.tryOthers(script);
    }

    /** @param {string} script */
    async tryOthers(script) {
        this.say('Trying other inputs …');
        const { signal } = this.trying;
        const failed = await new Trial(this.chosen, script, signal).failure();
        if (signal.aborted) return;
        if (!failed) this.say('Done: this prints what is wanted.');
        else if (failed.wanted === undefined) this.say(failed.says);
        else {
            const difference = differenceOf(failed.output, failed.wanted);
            const words = difference ? differenceWords(difference).replace(/^Not yet: y/, 'Y')
                : 'It doesn’t end by itself.';
            this.say(`${failed.says} ${words}`, difference, failed.input);
        }
    }

    /**
     * @param {string} words
     * @param {import('./difference.js').Difference | null} [difference]
     * @param {string} [input] the one that was tried
     */
    say(words, difference = null, input = undefined) {
        find('verdict').replaceChildren(...withBlanks(words));
        showDifference(difference, input);
    }

    /** Removes the message about a run. */
    forgetVerdict() {
        this.trying.abort();
        this.trying = new AbortController();
        this.say('');
    }
}
