/**
 * Says in words what each function does with its arguments. The engine gives what a call finds and what its result is.
 * @module
 */

import {
    FRONT_OF_LINE, MOST_ARGUMENTS, MOST_IN_LINE, NEUTRAL_CALL, isSameRow, lineOf, nameKey, several, shortName,
} from './codes.js';

/** How many arguments or names a sentence has at most. */
const MOST_SAID = 8;
const FIRST_GAP = 256;

/** @typedef {import('../js/trac.mjs').StoredForm} StoredForm */

/**
 * A text as it is quoted in a sentence.
 * @param {string} text
 */
function quoted(text) {
    return text ? `“${shortName(text)}”` : 'the null text';
}

/**
 * A form in a sentence, by its name.
 * @param {string} name
 */
function form(name) {
    return name ? `form ${quoted(name)}` : 'form with the null name';
}

/**
 * A list in words, which is cut if it is long.
 * @param {string[]} words
 */
function listed(words) {
    const said = words.length > MOST_SAID ? [...words.slice(0, MOST_SAID), 'more'] : words;
    return said.length < 2 ? said.join('') : `${said.slice(0, -1).join(', ')} and ${said[said.length - 1]}`;
}

/**
 * The form of a name, or null.
 * @param {StoredForm[]} forms
 * @param {Uint8Array} name
 */
function formNamed(forms, name) {
    return forms.find((each) => isSameRow(each.name, name)) ?? null;
}

/** A call that the next step performs: its arguments, the forms that it finds, and its result. */
class Doing {
    /**
     * @param {import('./history.js').History} history
     * @param {import('./history.js').Call} call
     */
    constructor(history, { mark, given, words }) {
        this.machine = history.machine;
        this.forms = history.forms();
        this.outcome = history.comingOutcome();
        this.isNeutral = mark === NEUTRAL_CALL;
        this.given = given;
        this.words = words;
    }

    /**
     * An argument as a line; the first one after the name is number 1.
     * @param {number} which
     */
    word(which) {
        return this.words[which] ?? '';
    }

    /** The arguments after the first one, as lines. */
    get further() {
        return this.words.slice(2, MOST_ARGUMENTS);
    }

    /** The form that the first argument names, or null. */
    get form() {
        return formNamed(this.forms, this.machine.argument(1));
    }

    /** The same form as it is after the step, or null if that isn't known. */
    get later() {
        return this.outcome && formNamed(this.outcome.session.forms(), this.machine.argument(1));
    }

    /**
     * Whether the value is an argument; null if that isn't known.
     * @param {number} which
     */
    isValue(which) {
        const value = this.outcome?.value;
        if (!value) return null;
        const text = this.machine.argument(which, FRONT_OF_LINE);
        const isSame = Math.min(value.length, FRONT_OF_LINE) === text.length && isSameRow(text, value.front);
        return isSame && value.length > MOST_IN_LINE ? null : isSame;
    }

    /** That the value is the default one, in words. */
    byDefault() {
        const text = this.word(functionNamed(this.words[0]).defaultArgument);
        return `so the value is the default, ${text ? quoted(text) : 'which is null'}.`;
    }
}

/** @typedef {(doing: Doing) => string} Says */

/**
 * A sentence about the form that the first argument names, or that there is none.
 * @param {(doing: Doing, found: StoredForm, name: string) => string} says
 * @param {string} [none]
 * @returns {Says}
 */
function ofForm(says, none = 'so the value is null and nothing changes') {
    return (doing) => {
        const name = form(doing.word(1));
        const found = doing.form;
        return found ? says(doing, found, `the ${name}`) : `There is no ${name}, ${none}.`;
    };
}

/**
 * Whether there is no more input, so that a call that reads ends the run.
 * @param {string} words what it reads, if there is more input
 * @returns {Says}
 */
function reads(words) {
    return ({ outcome }) => (outcome?.fate === 'input ended' ? 'There is no more input, so the run ends.' : words);
}

/** @type {Says} */
function metaWords({ machine }) {
    const first = machine.argument(1, 1);
    if (!first.length) return 'Its argument is null, so the meta character stays.';
    const name = quoted(lineOf(first));
    return first[0] === machine.meta ? `${name} is the meta character already, and stays it.`
        : `${name} becomes the meta character, which ends a string.`;
}

/** @type {Says} */
function definedWords(doing) {
    const [name, text, old] = [form(doing.word(1)), quoted(doing.word(2)), doing.form];
    if (!old) return `It defines the ${name} as ${text}.`;
    const isSame = old.pointer === 0 && isSameRow(old.items, doing.machine.argument(2));
    return `It defines the ${name} anew, as ${text}${isSame ? ', as it was' : ''}.`;
}

/**
 * How often a gap stands in a form.
 * @param {StoredForm} found
 * @param {number} ordinal
 */
function gapsIn({ items }, ordinal) {
    return items.reduce((count, item) => count + (item === FIRST_GAP + ordinal - 1 ? 1 : 0), 0);
}

/** @type {(doing: Doing, found: StoredForm, name: string) => string} */
function segmentedWords(doing, found, name) {
    const { further, later } = doing;
    if (!further.some(Boolean)) {
        return found.pointer ? `It sets the pointer of ${name} to the start.`
            : `The pointer of ${name} stays at the start.`;
    }
    if (!later) return `In ${name}, each ${listed(further.map(quoted))} that is found becomes a gap.`;
    const isMade = further.map((_, index) => gapsIn(later, index + 1) > gapsIn(found, index + 1));
    const made = further.map((text, index) => (isMade[index] ? `each ${quoted(text)} becomes gap ${index + 1}` : ''));
    const missed = further.filter((text, index) => text && !isMade[index]).map(quoted);
    const isLost = missed.length ? `${listed(missed)} ${missed.length > 1 ? 'aren’t' : 'isn’t'} found` : '';
    const stays = isSameRow(found.items, later.items);
    const end = found.pointer ? '; its pointer goes to the start' : stays ? ', so nothing changes' : '';
    return `In ${name}, ${listed([...made, isLost].filter(Boolean))}${end}.`;
}

/**
 * The forms that a call of dd removes.
 * @param {Doing} doing
 */
function removedForms({ machine, words, forms, outcome }) {
    if (outcome) {
        const left = new Set(outcome.session.forms().map(({ name }) => nameKey(name)));
        return forms.filter(({ name }) => !left.has(nameKey(name)));
    }
    const named = new Set(words.slice(1).map((_, index) => nameKey(machine.argument(index + 1))));
    return forms.filter(({ name }) => named.has(nameKey(name)));
}

/** @type {Says} */
function removedWords(doing) {
    const { given, words } = doing;
    if (!given) return 'It names no form, so nothing changes.';
    const removed = removedForms(doing);
    const missing = given - removed.length;
    if (!removed.length) {
        return given === 1 ? `There is no ${form(words[1])}, so nothing changes.`
            : `There is no form of these ${several(given, 'name')}, so nothing changes.`;
    }
    const names = removed.map(({ name }) => `the ${form(lineOf(name))}`);
    const others = missing === 1 ? 'other name' : `other ${missing} names`;
    return `It removes ${listed(names)}${missing ? `; of its ${others} there is no form` : ''}.`;
}

/** @type {(doing: Doing, found: StoredForm, name: string) => string} */
function calledWords({ further }, { items, pointer }, name) {
    const rest = items.subarray(pointer);
    if (!items.length) return `The body of ${name} is null, and so the value is null.`;
    if (!rest.length) return `The pointer of ${name} is at its end, so the value is null.`;
    const gaps = [...new Set(rest)].filter((item) => item >= FIRST_GAP).map((item) => item - FIRST_GAP + 1);
    const filled = gaps.sort((a, b) => a - b).map((gap) => (
        `${gap > further.length ? 'nothing' : quoted(further[gap - 1])} in gap ${gap}`));
    const unused = further.flatMap((text, index) => (gaps.includes(index + 1) ? []
        : [`gap ${index + 1} for ${quoted(text)}`]));
    const behind = pointer ? ' behind its pointer' : '';
    return `It calls ${name} from its pointer on${filled.length ? `, with ${listed(filled)}` : ''}${
        unused.length ? `; it has no ${listed(unused)}${behind}` : ''}.`;
}

/** @type {(doing: Doing, found: StoredForm, name: string) => string} */
function segmentWords(doing, { items, pointer }, name) {
    if (pointer === items.length) return `The pointer of ${name} is at its end, ${doing.byDefault()}`;
    if (items[pointer] >= FIRST_GAP) return `A gap stands at the pointer of ${name}, so the value is null.`;
    const { later } = doing;
    if (!later) return `It takes ${name} from its pointer up to the next gap, or to its end.`;
    const isGap = items[later.pointer - 1] >= FIRST_GAP;
    return `It takes ${name} from its pointer up to ${isGap ? 'the next gap' : 'its end'}.`;
}

/** @type {(doing: Doing, found: StoredForm, name: string) => string} */
function characterWords(doing, { pointer }, name) {
    const { later } = doing;
    if (!later) return `It takes the next character of ${name}, or else its default.`;
    return later.pointer === pointer ? `No character is left in ${name}, ${doing.byDefault()}`
        : `It takes the next character of ${name}.`;
}

/** @type {(doing: Doing, found: StoredForm, name: string) => string} */
function charactersWords(doing, { pointer }, name) {
    const { later, outcome } = doing;
    if (!later) return `It takes characters of ${name}, as many as ${quoted(doing.word(2))} says, or else its default.`;
    const { length } = outcome.value;
    const count = length === 1 ? 'character' : several(length, 'character');
    if (later.pointer > pointer) return `It takes the next ${count} of ${name}.`;
    if (later.pointer < pointer) return `It takes the ${count} in front of the pointer of ${name}.`;
    return length ? `No character is there in ${name}, ${doing.byDefault()}`
        : `It takes no character of ${name}, so the value is null.`;
}

/** @type {(doing: Doing, found: StoredForm, name: string) => string} */
function initialWords(doing, { pointer }, name) {
    const { later } = doing;
    const text = quoted(doing.word(2));
    if (!doing.word(2)) return `The null text is looked for in ${name}, so the value is null.`;
    if (!later) return `It takes ${name} from its pointer up to the next ${text}, or else its default.`;
    return later.pointer === pointer ? `No ${text} stands behind the pointer of ${name}, ${doing.byDefault()}`
        : `It takes ${name} from its pointer up to the next ${text}.`;
}

/**
 * A sentence about a comparison.
 * @param {Doing} doing
 * @param {string} holds
 * @param {string} fails
 */
function compared(doing, holds, fails) {
    const [isThird, isFourth] = [doing.isValue(3), doing.isValue(4)];
    if (isThird && isFourth) {
        return `The third and the fourth argument are ${doing.word(3) ? 'the same, so the value is that'
            : 'null, and so is the value'}.`;
    }
    if (isThird === null || isFourth === null) return 'It chooses between its third argument and its fourth.';
    const [said, which] = isThird ? [holds, 3] : [fails, 4];
    return `${said}, so the value is the ${isThird ? 'third' : 'fourth'} argument${
        doing.word(which) ? '' : ', which is null'}.`;
}

/** @type {Says} */
function equalWords(doing) {
    const [one, other] = [quoted(doing.word(1)), quoted(doing.word(2))];
    return compared(doing, `${one} and ${other} are the same`, `${one} and ${other} are not the same`);
}

/** @type {Says} */
function greaterWords(doing) {
    const [one, other] = [doing.word(1), doing.word(2)].map((text) => (
        /^[-+]?\d{1,40}$/.test(text) ? text : `the number of ${quoted(text)}`));
    const first = one[0].toUpperCase() + one.slice(1);
    return compared(doing, `${first} is greater than ${other}`, `${first} is not greater than ${other}`);
}

/**
 * Whether the value of a call that computes is its default; null if that isn't known, because a result ends with a
 * digit and the default may be the same text.
 * @param {Doing} doing
 */
function isByDefault(doing) {
    const value = doing.outcome?.value;
    if (!value) return null;
    if (!value.length) return true;
    if (doing.isNeutral) return value.isActive;
    const isDefault = doing.isValue(3);
    return isDefault && !/\d$/.test(doing.word(3)) ? true : isDefault === false ? false : null;
}

/**
 * A sentence about a call that computes.
 * @param {string} verb
 * @param {(one: string, other: string) => string} rest
 * @returns {Says}
 */
function computed(verb, rest) {
    return (doing) => {
        const numbers = rest(quoted(doing.word(1)), quoted(doing.word(2)));
        const isDefault = isByDefault(doing);
        if (isDefault) return `It can’t ${verb} ${numbers} in its range, ${doing.byDefault()}`;
        return `It ${verb}s ${numbers}${isDefault === null ? ', or else gives its default' : ''}.`;
    };
}

/**
 * The sentence on a call of each function. For a function without a sentence here the engine's sentence is used.
 * @type {Record<string, Says>}
 */
const SENTENCES = {
    rs: reads('It reads the input up to the meta character.'),
    rc: reads('It reads the next character of the input, whatever that is.'),
    cm: metaWords,
    ps: (doing) => (doing.word(1) ? `It prints ${quoted(doing.word(1))}.` : 'It prints nothing: its argument is null.'),
    hl: () => 'It ends the run.',
    ds: definedWords,
    ss: ofForm(segmentedWords),
    dd: removedWords,
    da: ({ forms }) => (forms.length ? 'It removes all forms.' : 'There is no form, so nothing changes.'),
    ln: (doing) => (doing.forms.length ? `It lists the names of all forms, ${quoted(doing.word(1))} before each.`
        : 'There is no form, so the value is null.'),
    pf: ofForm((_, __, name) => `It prints ${name} with its gaps and its pointer.`, 'so nothing is printed'),
    cl: ofForm(calledWords, 'so the value is null'),
    cs: ofForm(segmentWords),
    cc: ofForm(characterWords),
    cn: ofForm(charactersWords),
    in: ofForm(initialWords),
    cr: ofForm((_, { pointer }, name) => (pointer ? `It sets the pointer of ${name} to the start.`
        : `The pointer of ${name} stays at the start.`)),
    eq: equalWords,
    gr: greaterWords,
    ad: computed('add', (one, other) => `${one} and ${other}`),
    su: computed('subtract', (one, other) => `${other} from ${one}`),
    ml: computed('multiply', (one, other) => `${one} by ${other}`),
    dv: computed('divide', (one, other) => `${one} by ${other}`),
    bu: (doing) => `It unites the bits of ${quoted(doing.word(1))} and ${quoted(doing.word(2))}.`,
    bi: (doing) => `It intersects the bits of ${quoted(doing.word(1))} and ${quoted(doing.word(2))}.`,
    bc: (doing) => `It turns each bit of ${quoted(doing.word(1))} over.`,
    bs: (doing) => `It shifts the bits of ${quoted(doing.word(2))} by ${quoted(doing.word(1))}.`,
    br: (doing) => `It rotates the bits of ${quoted(doing.word(2))} by ${quoted(doing.word(1))}.`,
};

/**
 * The functions of the language by name, as the engine describes them.
 * @type {Map<string, import('../js/trac.mjs').LanguageFunction>}
 */
const table = new Map();

/**
 * Asks a machine for the functions of the language, once.
 * @param {import('../js/trac.mjs').Session} machine
 */
export function learnFunctions(machine) {
    if (table.size) return;
    for (const each of machine.language()) table.set(each.name, each);
}

/**
 * The function of a name, of letters of either case.
 * @param {string} name
 */
export function functionNamed(name) {
    return /^[\x21-\x7e]+$/.test(name) ? table.get(name.toLowerCase()) ?? null : null;
}

/**
 * Whether a call of this name may change a form.
 * @param {string} name
 */
export function changesForms(name) {
    return functionNamed(name)?.changesForms ?? false;
}

/**
 * The name of a call in a sentence: a name that is no function is quoted.
 * @param {string} name
 * @param {string} none the words to use if there is no name
 */
export function nameWords(name, none) {
    if (!name) return none;
    return functionNamed(name) ? name : quoted(name);
}

/**
 * What the call does that the next step performs, in a sentence.
 * @param {import('./history.js').History} history
 * @param {import('./history.js').Call} call
 */
export function callWords(history, call) {
    const [name] = call.words;
    const known = functionNamed(name);
    if (known) {
        const says = Object.hasOwn(SENTENCES, known.name) ? SENTENCES[known.name] : () => known.sentence;
        return says(new Doing(history, call));
    }
    return name ? 'No function has this name, so the value is null.' : 'The value is null.';
}
