/**
 * Where the characters that a run scans were written: in the input, in the body of a form, or nowhere. The places are
 * carried along from step to step. The engine says what a step does, and where the value of a call comes from. Nothing
 * here uses the document.
 * @module
 */

import { lineOf, nameKey } from './codes.js';
import { functionNamed } from './functions.js';
import {
    Kept, Near, Pace, SLICE, STEPS_OF_READING,
} from './machines.js';

/** How many steps of a string are followed at most: what is scanned further on takes too long to be found. */
const MOST_FOLLOWED = 1000000;
/** How far apart machines are kept with their places, in steps; in a large block, to keep one takes longer. */
const STEPS_APART = 128;
const CELLS_A_STEP = 1024;
/** How far apart they are in front of the step that is approached, so that a step back follows few steps. */
const NEAR_APART = 32;
const NEAR_STEPS = 256;
const COMMA_MARK = 258;

/** @typedef {import('../js/trac.mjs').StoredForm} StoredForm */

/**
 * A text that contains characters: the input, a form as it was when it was called, or what the idling procedure or a
 * function made, which is written nowhere.
 * @typedef {{kind: 'input'} | {kind: 'form', form: StoredForm} | {kind: 'idling'} | {kind: 'made', by: string}} Text
 */

/**
 * Consecutive characters of a text, and how many characters of it precede them.
 * @typedef {{text: Text, at: number, length: number}} Span
 */

/**
 * A list of consecutive spans. It is never changed, so many lists can share their ends.
 * @typedef {{span: Span, rest: Chain} | null} Chain
 */

/** @type {Text} */
const INPUT = { kind: 'input' };
/** @type {Text} */
const IDLING = { kind: 'idling' };

/**
 * @param {Span} span
 * @param {number} from
 * @param {number} to
 */
function partOfSpan({ text, at }, from, to) {
    return { text, at: at + from, length: to - from };
}

/**
 * Spans before other spans.
 * @param {Span[]} spans
 * @param {Chain} chain
 * @returns {Chain}
 */
function withFirst(spans, chain) {
    return spans.reduceRight((rest, span) => (span.length ? { span, rest } : rest), chain);
}

/**
 * Spans without their first characters.
 * @param {Chain} chain
 * @param {number} count
 * @returns {Chain}
 */
function withoutFirst(chain, count) {
    let [rest, left] = [chain, count];
    while (rest && left >= rest.span.length) {
        left -= rest.span.length;
        rest = rest.rest;
    }
    return rest && left ? { span: partOfSpan(rest.span, left, rest.span.length), rest: rest.rest } : rest;
}

/**
 * The spans of the first characters.
 * @param {Chain} chain
 * @param {number} count
 */
function firstSpans(chain, count) {
    const found = [];
    for (let [rest, left] = [chain, count]; rest && left; rest = rest.rest) {
        const length = Math.min(left, rest.span.length);
        found.push(partOfSpan(rest.span, 0, length));
        left -= length;
    }
    return found;
}

/**
 * Spans after other spans, in a list that begins with the last one.
 * @param {Chain} chain
 * @param {Span[]} spans
 * @returns {Chain}
 */
function withLast(chain, spans) {
    return spans.reduce((rest, span) => {
        const last = rest?.span;
        if (last?.text !== span.text || last.at + last.length !== span.at) return { span, rest };
        return { span: { ...last, length: last.length + span.length }, rest: rest.rest };
    }, chain);
}

/**
 * The spans of the last characters, in the order of the text, from a list that begins with the last span; and the spans
 * before them.
 * @param {Chain} chain
 * @param {number} count
 * @returns {{spans: Span[], rest: Chain}}
 */
function lastSpans(chain, count) {
    /** @type {Span[]} */
    const spans = [];
    let [rest, left] = [chain, count];
    while (rest && left >= rest.span.length) {
        spans.push(rest.span);
        left -= rest.span.length;
        rest = rest.rest;
    }
    if (rest && left) {
        const { span } = rest;
        spans.push(partOfSpan(span, span.length - left, span.length));
        rest = { span: partOfSpan(span, 0, span.length - left), rest: rest.rest };
    }
    return { spans: spans.reverse(), rest };
}

/**
 * The characters of a form's body between two places, with each gap filled.
 * @param {StoredForm} form
 * @param {number} from
 * @param {number} to
 * @param {(ordinal: number) => Span[]} filler what replaces a gap
 * @returns {Span[]}
 */
function bodyOf(form, from, to, filler) {
    /** @type {Text} */
    const text = { kind: 'form', form };
    const parts = [];
    for (let at = from; at < to;) {
        let end = at;
        while (end < to && form.items[end] < 256) end += 1;
        parts.push([{ text, at, length: end - at }]);
        if (end < to) parts.push(filler(form.items[end] - 255));
        at = end + 1;
    }
    return parts.flat();
}

/** A call that is performed: where its arguments were written, and where its value comes from. */
class Performing {
    /**
     * @param {import('../js/trac.mjs').Session} session
     * @param {Chain} neutral
     */
    constructor(session, neutral) {
        const [place] = session.calls(1);
        const codes = session.neutralPart(place);
        const { spans, rest } = lastSpans(neutral, codes.length);
        this.place = place;
        /** What precedes the call. */
        this.front = rest;
        /** @type {Span[][]} */
        this.given = [];
        let behind = withoutFirst(withFirst(spans, null), 1);
        for (let from = 1; from <= codes.length;) {
            const comma = codes.indexOf(COMMA_MARK, from);
            const to = comma < 0 ? codes.length : comma;
            this.given.push(firstSpans(behind, to - from));
            behind = withoutFirst(behind, to + 1 - from);
            from = to + 1;
        }
        this.name = lineOf(session.argument(0));
        this.known = functionNamed(this.name);
        /** The name of the form that the call is about. */
        this.formName = nameKey(session.argument(1));
        this.source = session.valueSource();
    }

    /**
     * Where an argument was written; the first one after the name is number 1.
     * @param {number} which
     */
    argument(which) {
        return this.given[which] ?? [];
    }
}

/** Follows the characters of a run from step to step. */
export class Origins {
    /**
     * @param {import('./history.js').History} history
     * @param {import('./machines.js').Walker} walker a machine of the same run
     */
    constructor(history, walker) {
        this.history = history;
        this.walker = walker;
        this.pace = new Pace();
        /** The step at which the string began to be read that is followed, -1 before any is. */
        this.begin = -1;
        /**
         * @type {Kept | null} machines of that string, with their places; empty until the beginning of the string is
         * reached
         */
        this.kept = null;
        /** The machines of that string in front of the step that was approached, with their places. */
        this.near = new Near();
        /** @type {Chain} */
        this.active = null;
        /** @type {Chain} which begins with the last span */
        this.neutral = null;
        /** @type {Map<string, StoredForm> | null} by their names; null if they have to be read again */
        this.forms = null;
        /**
         * @type {ReturnType<import('../js/trac.mjs').Session['parts']> | null} null if the engine has to be asked again
         */
        this.parts = null;
    }

    /**
     * Goes on towards a step for some milliseconds at most.
     * @param {number} step
     * @param {number} [most] milliseconds
     * @returns {boolean} whether the step is reached, or is too far from the beginning of its string; if not, the same
     * is called again
     */
    approach(step, most = SLICE) {
        const until = performance.now() + most;
        if (!this.comeNear(step, until)) return false;
        if (step - this.begin > MOST_FOLLOWED) return true;
        while (this.walker.state.step < step) {
            if (performance.now() > until) return false;
            this.follow();
            this.keep(step);
        }
        return true;
    }

    /**
     * Keeps the machine with its places, if it is time for it.
     * @param {number} step the one that is approached
     */
    keep(step) {
        const here = this.walker.state.step;
        const left = step - here;
        if (here === this.kept.due) this.kept.add(this.save());
        else if (left && left <= NEAR_STEPS && left % NEAR_APART === 0) this.near.keep(this.save());
    }

    /**
     * Goes to the beginning of a step's string, or to the last saved places before the step.
     * @param {number} step
     * @param {number} until a time of `performance.now`
     * @returns {boolean} whether that is reached
     */
    comeNear(step, until) {
        const { history, walker } = this;
        const begin = Math.max(0, (history.strings.at(step)?.step ?? 0) - STEPS_OF_READING);
        if (this.begin !== begin) {
            this.begin = begin;
            this.kept = null;
            this.near = new Near();
            walker.restore(history.nearest(begin));
        }
        if (!this.kept) {
            this.pace.advance(walker, begin, until);
            if (walker.state.step < begin) return false;
            [this.active, this.neutral, this.forms, this.parts] = [null, null, null, null];
            this.kept = new Kept(this.save(), history.block.cells);
            this.kept.apart = Math.max(STEPS_APART, Math.ceil(history.block.cells / CELLS_A_STEP));
        }
        const nearest = this.near.before(step, this.kept.before(step));
        const here = walker.state.step;
        if (here > step || nearest.state.step > here) this.restore(nearest);
        return true;
    }

    save() {
        const { active, neutral } = this;
        return { ...this.walker.save(), active, neutral };
    }

    /** @param {any} saved what `save` gave */
    restore(saved) {
        this.walker.restore(saved);
        [this.active, this.neutral, this.forms, this.parts] = [saved.active, saved.neutral, null, null];
    }

    /**
     * Where the first of the characters that the next step scans were written, as far as these are consecutive there;
     * null if that isn't known, or if the step scans no character.
     * @param {number} step the one that was approached
     * @param {number} count how many the step scans
     * @returns {Span | null}
     */
    scanned(step, count) {
        if (this.walker.state.step !== step || !this.active) return null;
        return firstSpans(this.active, count)[0] ?? null;
    }

    /** Makes a step. */
    follow() {
        const { session } = this.walker;
        const rule = session.rule();
        if (rule === 'end of call' && session.argumentCount()) this.perform();
        else this.scan(rule);
    }

    /** Makes a step; gives the number of cells of each part of the block before and after it. */
    advance() {
        const before = this.parts ?? this.walker.session.parts();
        this.walker.advance(1);
        this.parts = this.walker.session.parts();
        return { before, after: this.parts };
    }

    /**
     * Makes a step of scanning: the characters that it adds go to the end of the neutral string.
     * @param {string} rule
     */
    scan(rule) {
        const { before, after } = this.advance();
        if (rule === 'idling') {
            this.neutral = null;
            this.active = withFirst([{ text: IDLING, at: 0, length: after.active }], null);
            return;
        }
        const grown = after.neutral - before.neutral;
        // a protected text stands behind a parenthesis that is deleted; a mark takes the place of what opens a call
        const kept = rule === 'protection' ? withoutFirst(this.active, 1) : this.active;
        this.neutral = withLast(this.neutral, firstSpans(kept, grown));
        this.active = withoutFirst(this.active, before.active - after.active);
    }

    /** Makes a step that performs a call: its value takes the place of the call, or stands in front. */
    perform() {
        const { session, state } = this.walker;
        const call = new Performing(session, this.neutral);
        const { consumed } = state;
        const form = call.known?.needsForm ? this.formNamed(call.formName) : null;
        const { before, after } = this.advance();
        if (call.known?.changesForms) this.forms = null;
        const grown = after.active - (before.active - 1);
        const length = grown > 0 ? grown : after.neutral - call.place;
        const spans = length ? this.writtenIn(call, form, consumed, length) : [];
        this.active = withoutFirst(this.active, 1);
        this.neutral = call.front;
        if (grown > 0) this.active = withFirst(spans, this.active);
        else this.neutral = withLast(this.neutral, spans);
    }

    /**
     * A form as it stands now.
     * @param {string} name
     */
    formNamed(name) {
        this.forms ??= new Map(this.walker.session.forms().map((form) => [nameKey(form.name), form]));
        return this.forms.get(name) ?? null;
    }

    /**
     * Where the value of a call was written.
     * @param {Performing} call
     * @param {StoredForm | null} form the form that the call is about, as it was
     * @param {number} consumed how many bytes of the input were read before
     * @param {number} length how many characters the value has
     * @returns {Span[]}
     */
    writtenIn(call, form, consumed, length) {
        const { kind, argument } = call.source;
        if (kind === 'argument') return call.argument(argument);
        if (kind === 'body') {
            return bodyOf(form, form.pointer, form.items.length, (ordinal) => call.argument(ordinal + 1));
        }
        if (kind === 'part') return this.partOf(call, form);
        if (kind === 'input') return [{ text: INPUT, at: consumed, length }];
        return [{ text: { kind: 'made', by: call.name }, at: 0, length }];
    }

    /**
     * What the pointer of a form passed over, or the default value if it stayed.
     * @param {Performing} call
     * @param {StoredForm} form as it was
     */
    partOf(call, form) {
        const { argument, sought } = call.source;
        const { pointer } = this.formNamed(call.formName);
        if (pointer === form.pointer) return call.argument(argument);
        const [from, to] = [form.pointer, pointer].sort((one, other) => one - other);
        return bodyOf(form, from, to - sought, () => []);
    }
}
