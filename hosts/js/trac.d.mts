// Generated from trac.mjs by `make types`, and never edited.
/**
 * Gives this file the bytes of trac.wasm, for a page or a program that contains them. If it is called first, `run` and
 * `Session.open` don't look for the file. If the bytes are no module, the `run` or `Session.open` that uses them
 * throws.
 * @param {Uint8Array | ArrayBuffer} bytes
 * @throws {TypeError} if they are no bytes
 */
export function provide(bytes: Uint8Array | ArrayBuffer): void;
/**
 * Runs a script to its end.
 * @param {string | Uint8Array | ArrayBuffer} script the script; of a string, its bytes in UTF-8
 * @param {object} [limits]
 * @param {number} [limits.cells] cells of the workspace, from 1 to 16777216; 65536 if left out
 * @param {number | bigint} [limits.steps] the steps allowed, from 1 to 2^64 - 1; 1000000 if left out
 * @returns {Promise<Report>}
 * @throws {TypeError} if the script is no text, a limit is no whole number, or an option is unknown
 * @throws {RangeError} if a limit is out of its range, or the memory can't be had
 */
export function run(script: string | Uint8Array | ArrayBuffer, limits?: {
    cells?: number;
    steps?: number | bigint;
}): Promise<Report>;
/**
 * Something suspicious in a script.
 * @typedef {object} Warning
 * @property {number} line its line, from 1
 * @property {number} column from 1, in characters
 * @property {string} text the message; for a place in the value of a form, also its place there
 */
/**
 * The result of a check: how the run ended, as in a `Report`, and what is suspicious.
 * @typedef {object} CheckReport
 * @property {Report['fate']} fate
 * @property {bigint} steps
 * @property {number} peak
 * @property {Warning[]} warnings in the order of their places
 */
/**
 * Runs a script to its end, and reports what is suspicious in it, by the rules of `trac_trace --warn`: names that are
 * no function, parentheses that end no call, and so on. The script's output isn't kept.
 * @param {string | Uint8Array | ArrayBuffer} script the script; of a string, its bytes in UTF-8
 * @param {object} [limits]
 * @param {number} [limits.cells] cells of the workspace, from 1 to 16777216; 65536 if left out
 * @param {number | bigint} [limits.steps] the steps allowed, from 1 to 2^64 - 1; 1000000 if left out
 * @returns {Promise<CheckReport>}
 * @throws {TypeError} if the script is no text, a limit is no whole number, or an option is unknown
 * @throws {RangeError} if a limit is out of its range, or the memory can't be had
 */
export function check(script: string | Uint8Array | ArrayBuffer, limits?: {
    cells?: number;
    steps?: number | bigint;
}): Promise<CheckReport>;
/**
 * TRAC T-64 in WebAssembly, for browsers and Node. The file trac.wasm is beside this one.
 *
 * The module is made from a proved library. Not proved are this file, binaryen, which converts the module to 32-bit
 * memory, and the host that runs it.
 * @module
 */
/** The version of this release. */
export const VERSION: "@VERSION@";
/** The most cells that a workspace may have. */
export const MOST_CELLS: 16777216;
/**
 * The result of a turn.
 * @typedef {object} TurnReport
 * @property {'going' | 'wants input' | 'wants output' | 'wants answer' | 'halted' | 'input ended' | 'workspace' |
 * 'steps'} fate `going` if all its steps were done and the run goes on; `wants input` if the next step reads more than
 * there is; `wants output` if there is no memory for what the next step prints; `wants answer` if the next step
 * performs a call of no function, and `stopAtUnknown` asked to stop there; in these three cases nothing of the next
 * step was done; otherwise how the run ended, as in a `Report`
 * @property {bigint} steps the steps of the whole run so far
 * @property {number} peak the greatest need of a step of the whole run so far, in cells
 * @property {Uint8Array} output what was printed in this turn; left out of JSON
 * @property {string} text the same, read as UTF-8, after the bytes of a character that earlier turns cut; a character
 * that this turn cuts is in the text of the next turn
 * @property {number} consumed how many bytes of this input were read: give the others again at the next turn, with more
 * bytes after them
 */
/**
 * What is shown of a run.
 * @typedef {object} Views
 * @property {number | bigint} [from] the first step that is shown, from 1; 1 if left out
 * @property {number | bigint} [to] the last step that is shown, up to 2^64 - 1; 2^64 - 1 if left out
 * @property {boolean} [calls] shows the calls that are performed instead of the steps
 * @property {boolean} [forms] shows the forms that change, and all forms at the end, instead of the steps
 * @property {number} [width] the maximum number of bytes of a text, and of cells of a string, 0 for all, up to
 * 16777216; 100 if left out
 * @property {number} [columns] the maximum number of columns of a line, 0 for any number, up to 16777216; 0 if left out
 */
/**
 * Makes a step as a turn with `most` 1 does, and also gives its lines: after a heading if it is the first step, and
 * before the lines on how the run ended if it is the last step. There are no lines if it wants input; it never wants
 * output. Each later step says again how the run ended.
 * @callback TraceStep
 * @param {string | Uint8Array | ArrayBuffer} [input] the bytes to read; of a string, its bytes in UTF-8
 * @param {{ended?: boolean}} [how] whether the input ends after these bytes; false if left out
 * @returns {TurnReport & {lines: string}}
 * @throws {TypeError} if the input is no text, or an option unknown
 * @throws {RangeError} if there is no memory for the input, the output or the lines. If the memory for the lines was
 * too small, which happens above some million cells, the error has a `report`, a TurnReport: it says whether the step
 * was made, what it read and what it printed, and only its lines are lost. Otherwise nothing was read or printed
 */
/**
 * A run that is shown, step by step. Made by `Session.trace`.
 * @typedef {object} Trace
 * @property {TraceStep} step makes a step, and gives its lines
 */
/**
 * A form in its current state.
 * @typedef {object} StoredForm
 * @property {Uint8Array} name
 * @property {Uint8Array} text the body as `pf` shows it: `<N>` for a gap, and `<^>` at the pointer
 * @property {Uint32Array} items the body item by item: 0 to 255 is a byte, 255 + N the gap with the ordinal N
 * @property {number} pointer how many items precede the form's pointer
 */
/**
 * The state of a machine at some time, for `rewind`.
 * @typedef {object} Snapshot
 * @property {number} cells
 * @property {Uint8Array} machine
 * @property {{place: number, words: Uint32Array}[] | null} pages the pages of the block in which some word isn't 0,
 * each with the number of words before it; null if there was no turn yet, so that the block is still empty
 * @property {bigint} steps
 * @property {Uint8Array} cut the bytes of a character that the last turn cut
 */
/**
 * A function of the language: its name, a call, a description, and what is true of all its calls.
 * @typedef {object} LanguageFunction
 * @property {string} name its name, in letters of lower case
 * @property {string} call a call of it without the marks, with letters for arguments: `cs,N,Z`
 * @property {string} title what the name is short for
 * @property {string} sentence what it does, in one sentence with the letters of its call
 * @property {string} group the heading under which the manual describes it
 * @property {number} uses how many arguments after its name it uses; Infinity if all
 * @property {'none' | 'first' | 'each' | 'all'} forms the forms that a call concerns: none, the form that its first
 * argument names, the forms that its arguments name, or all
 * @property {boolean} needsForm whether a call does nothing if its first argument is the name of no form
 * @property {boolean} changesForms whether a call can make, change or remove the forms that it concerns
 * @property {'nothing' | 'body' | 'part'} gives which part of a form is its value
 * @property {number} defaultArgument which argument is its default value; 0 if it has none
 * @property {boolean} chooses whether its value is its third or its fourth argument
 * @property {boolean} reads whether it reads
 * @property {boolean} prints whether it can print
 * @property {boolean} changesMeta whether it can change the meta character
 * @property {boolean} ends whether it ends the run
 */
/**
 * Where the value of a call comes from.
 * @typedef {object} ValueSource
 * @property {'nothing' | 'argument' | 'body' | 'part' | 'input' | 'made'} kind nothing: the value is null, the call
 * ends the run, or the step performs no call; an argument; the body of the form that the first argument names, from its
 * pointer on, with the arguments in its gaps; the part of that body that the pointer passes over in the step, forward
 * or backward, without the gaps; the input; or made by the function
 * @property {number} argument the number of the argument that is the value, or, for a part, that is the value if the
 * pointer stays; 0 for the other kinds
 * @property {number} sought how many of the items that the pointer passes over at last are no part of the value: for
 * a search as many as the text has that it looks for, and otherwise 0
 */
/**
 * A machine with its own memory: scripts are run in turns, and the forms stay from one script to the next. Made by
 * `Session.open`.
 */
export class Session {
    /**
     * Opens a session whose machine has no forms.
     * @param {object} [limits]
     * @param {number} [limits.cells] cells of the workspace, from 1 to 16777216; 65536 if left out
     * @param {number | bigint} [limits.steps] the steps allowed, from 1 to 2^64 - 1; 1000000 if left out
     * @returns {Promise<Session>}
     * @throws {TypeError} if a limit is no whole number, or an option unknown
     * @throws {RangeError} if a limit is out of its range, or the memory can't be had
     */
    static open(limits?: {
        cells?: number;
        steps?: number | bigint;
    }): Promise<Session>;
    /**
     * Use `Session.open`.
     * @param {WebAssembly.Instance} instance
     * @param {bigint} cells
     * @param {bigint} steps
     */
    constructor(instance: WebAssembly.Instance, cells: bigint, steps: bigint);
    /**
     * Makes steps over a piece of input, up to a given number.
     * @param {string | Uint8Array | ArrayBuffer} [input] the bytes to read; of a string, its bytes in UTF-8
     * @param {object} [how]
     * @param {boolean} [how.ended] whether the input ends after these bytes; false if left out
     * @param {number | bigint} [how.most] the maximum number of steps of this turn; without a bound if left out
     * @returns {TurnReport}
     * @throws {TypeError} if the input is no text, `most` no whole number, or an option unknown
     * @throws {RangeError} if `most` is out of its range, or the memory for the input or the output can't be had;
     * nothing was read or printed then
     */
    turn(input?: string | Uint8Array | ArrayBuffer, how?: {
        ended?: boolean;
        most?: number | bigint;
    }): TurnReport;
    /**
     * Functions of the host, by name. If the name of a call is no function of the language, a turn calls the function
     * with this name, with the arguments after the name as bytes. It returns the value of the call: a string, bytes, or
     * nothing for the null value. If it throws an error, the turn ends and throws that error: `interrupted` then says
     * what the turn read and printed, and the call isn't performed yet. The function may not use the session that calls
     * it.
     * @type {Map<string, (...args: Uint8Array[]) => string | Uint8Array | ArrayBuffer | null | undefined>}
     */
    get functions(): Map<string, (...args: Uint8Array[]) => string | Uint8Array | ArrayBuffer | null | undefined>;
    /**
     * The result of the last turn that a function of the host ended by an error.
     * @type {TurnReport | undefined}
     */
    get interrupted(): TurnReport;
    /**
     * Makes turns stop, with the fate `wants answer`, before each call whose name is neither a function of the language
     * nor in `functions`: `argument` gives the call, and `answer` makes its step.
     * @param {boolean} [stops] true if left out
     */
    stopAtUnknown(stops?: boolean): void;
    /**
     * Makes the next step, which performs a call whose name is no function, with this value.
     * @param {string | Uint8Array | ArrayBuffer} value
     * @param {'by mode' | 'scanned' | 'unscanned'} [how] where the value goes: `by mode`, which is the default, as the
     * language says, so that it is scanned again after `#(` and not after `##(`; `scanned`, so that it is scanned
     * again; or `unscanned`, so that it never is, for data from outside
     * @returns {TurnReport}
     * @throws {TypeError} if the value is no text, or `how` is unknown
     * @throws {RangeError} if the next step performs no such call, or the run is over; then nothing has changed
     */
    answer(value: string | Uint8Array | ArrayBuffer, how?: 'by mode' | 'scanned' | 'unscanned'): TurnReport;
    /**
     * Makes a form from a name, the items of a body and a pointer, without a step. It becomes the last form, and an
     * older form of that name is removed.
     * @param {string | Uint8Array | ArrayBuffer} name
     * @param {string | Uint8Array | ArrayBuffer | Uint32Array} body a text, or items as `forms` gives them
     * @param {number} [pointer] how many items precede the form's pointer; 0 if left out
     * @throws {TypeError} if the name or the body is of another type
     * @throws {RangeError} if an item or the pointer is out of range, or the form doesn't fit; then nothing has changed
     */
    define(name: string | Uint8Array | ArrayBuffer, body: string | Uint8Array | ArrayBuffer | Uint32Array, pointer?: number): void;
    /**
     * Removes the form with a name, without a step.
     * @param {string | Uint8Array | ArrayBuffer} name
     * @returns {boolean} whether there was one
     */
    delete(name: string | Uint8Array | ArrayBuffer): boolean;
    /** Removes all forms, without a step. */
    deleteAll(): void;
    /**
     * The image of the forms, with their gaps and pointers, and of the meta character: bytes that are the same on
     * every machine, for storage or for another session. The strings are no part of it.
     * @returns {Uint8Array}
     */
    save(): Uint8Array;
    /**
     * Takes an image, as `save` gives it: its forms and its meta character take the place of the session's own. The
     * run goes on where it stands.
     * @param {Uint8Array | ArrayBuffer} image
     * @throws {TypeError} where it is no bytes
     * @throws {RangeError} where the bytes are no whole image, or its forms don't fit beside the strings; nothing has
     * changed
     */
    restore(image: Uint8Array | ArrayBuffer): void;
    /**
     * The run from here on as lines, which are those of `trac_trace`. A trace belongs to one run: after `again`, begin
     * another trace. The report of a step has the peak of the whole trace; the peak of the session counts from 0 again.
     * @param {Views} [views] what is shown
     * @returns {Trace}
     * @throws {TypeError} if a number is no whole number, or an option unknown
     * @throws {RangeError} if a number is out of its range
     */
    trace(views?: Views): Trace;
    /**
     * Begins a new run with this allowance: both strings are cleared, with the open calls, and the steps and the peak
     * count from 0. The forms with their pointers and the meta character stay.
     * @param {number | bigint} [steps] from 1 to 2^64 - 1; 1000000 if left out
     * @throws {RangeError} if the number is out of its range
     */
    again(steps?: number | bigint): void;
    /**
     * The peak, in cells, which then counts from 0 again: if you call this after each step, it gives what that step
     * needed.
     * @returns {number}
     */
    takePeak(): number;
    /** How many forms there are. */
    formCount(): number;
    /**
     * The forms, in the order in which they were defined.
     * @param {number} [most] the maximum number, from the first; all if left out
     * @returns {StoredForm[]}
     */
    forms(most?: number): StoredForm[];
    /**
     * The neutral string: the base text, and then for each open call its mark and its arguments.
     * @returns {Uint32Array} 0 to 255 is a byte, 256 the mark of an active call, 257 that of a neutral
     * call, 258 the mark between two arguments
     */
    neutral(): Uint32Array;
    /**
     * A part of the neutral string.
     * @param {number} from the place of its first code, from 0
     * @param {number} [most] the maximum number of codes; all from there on if left out
     * @returns {Uint32Array} as `neutral` gives them; none past the end
     */
    neutralPart(from: number, most?: number): Uint32Array;
    /**
     * The active string.
     * @param {number} [most] the maximum number of characters, from the first; all if left out
     * @returns {Uint32Array} a byte each, from 0 to 255
     */
    active(most?: number): Uint32Array;
    /**
     * A part of the active string.
     * @param {number} from the place of its first character, from 0
     * @param {number} [most] the maximum number of characters; all from there on if left out
     * @returns {Uint32Array} a byte each; none past the end
     */
    activePart(from: number, most?: number): Uint32Array;
    /** How many calls are open. */
    callCount(): number;
    /**
     * The open calls, the innermost first: the place of each call's mark in the neutral string. Its arguments follow
     * the mark, up to the mark of the next call or to the end.
     * @param {number} [most] the maximum number; all if left out
     * @returns {Uint32Array}
     */
    calls(most?: number): Uint32Array;
    /**
     * The number of arguments of the call that the next step performs, including its name and null arguments: one more
     * than it has comma marks. 0 if that step performs no call, if the run is over, or if the allowance is used up.
     */
    argumentCount(): number;
    /**
     * An argument of the call that the next step performs: the bytes that the call gets, after all calls in it.
     * @param {number} which 0 is the name
     * @param {number} [most] the maximum number of bytes, from the first; all if left out
     * @returns {Uint8Array} no bytes if there is no such argument
     * @throws {TypeError} if `which` is no whole number
     * @throws {RangeError} if it is out of its range
     */
    argument(which: number, most?: number): Uint8Array;
    /**
     * Where the value of the call comes from that the next step performs. If your own function has the name, what that
     * gives doesn't count.
     * @returns {ValueSource}
     */
    valueSource(): ValueSource;
    /**
     * The functions of the language, in the order of the manual.
     * @returns {LanguageFunction[]}
     */
    language(): LanguageFunction[];
    /**
     * How many characters the next step takes from the front of the active string: those that open a call; a text in
     * parentheses with both parentheses; all, if a left parenthesis has no match; none of an empty string; and
     * otherwise one.
     */
    takes(): number;
    /**
     * How many characters the next step drops: all of an active string that begins with a left parenthesis without a
     * match, and otherwise none.
     */
    drops(): number;
    /**
     * How many steps come before the next step at a right parenthesis, which performs a call if one is open, or at an
     * empty active string. None of these steps performs a call, reads or prints. They are counted as if the allowance
     * were unlimited.
     * @param {number | bigint} [most] the maximum number; without a bound if left out
     * @returns {number} never more than the active string has characters
     * @throws {TypeError} if `most` is no whole number
     * @throws {RangeError} if it is out of its range
     */
    stepsToCall(most?: number | bigint): number;
    /**
     * The rule of scanning that the next step applies.
     * @returns {string} by its name in the manual: idling, layout, protection, argument, active call, neutral call,
     * number sign, end of call or character
     */
    rule(): string;
    /**
     * How many cells each part of the block has.
     * @returns {{store: number, neutral: number, free: number, active: number}}
     */
    parts(): {
        store: number;
        neutral: number;
        free: number;
        active: number;
    };
    set meta(arg: number);
    /**
     * The meta character, a byte, which you can set. A value that is no whole number throws a TypeError; one that is
     * not from 0 to 255 throws a RangeError.
     * @type {number}
     */
    get meta(): number;
    /**
     * What the next step reads.
     * @returns {'nothing' | 'text' | 'byte'} `text` if it performs `rs`, `byte` if it performs `rc`
     */
    awaits(): 'nothing' | 'text' | 'byte';
    /**
     * The whole machine with its strings, for `rewind`.
     * @returns {Snapshot}
     */
    snapshot(): Snapshot;
    /**
     * Takes the machine back to a state of this session, or of another one that was opened with as many cells.
     * @param {Snapshot} snapshot
     * @throws {TypeError} if it isn't what `snapshot` gives
     * @throws {RangeError} if that session had another number of cells; then this one is as before
     */
    rewind(snapshot: Snapshot): void;
    #private;
}
/**
 * Something suspicious in a script.
 */
export type Warning = {
    /**
     * its line, from 1
     */
    line: number;
    /**
     * from 1, in characters
     */
    column: number;
    /**
     * the message; for a place in the value of a form, also its place there
     */
    text: string;
};
/**
 * The result of a check: how the run ended, as in a `Report`, and what is suspicious.
 */
export type CheckReport = {
    fate: Report['fate'];
    steps: bigint;
    peak: number;
    /**
     * in the order of their places
     */
    warnings: Warning[];
};
/**
 * The result of a run.
 */
export type Report = {
    /**
     * how it ended: the script called `hl`, or asked for
     * input after its end; a step needs more cells than there are; the allowance is used up
     */
    fate: 'halted' | 'input ended' | 'workspace' | 'steps';
    /**
     * the steps done; in JSON a number, or a string if no number is exact
     */
    steps: bigint;
    /**
     * the greatest need of a step, in cells: the smallest number of cells for the same run
     */
    peak: number;
    /**
     * what the script printed; left out of JSON
     */
    output: Uint8Array;
    /**
     * the same, read as UTF-8; a byte order mark stays
     */
    text: string;
    /**
     * how many bytes of the script were read
     */
    consumed: number;
};
/**
 * The result of a turn.
 */
export type TurnReport = {
    /**
     * `going` if all its steps were done and the run goes on; `wants input` if the next step reads more than
     * there is; `wants output` if there is no memory for what the next step prints; `wants answer` if the next step
     * performs a call of no function, and `stopAtUnknown` asked to stop there; in these three cases nothing of the next
     * step was done; otherwise how the run ended, as in a `Report`
     */
    fate: 'going' | 'wants input' | 'wants output' | 'wants answer' | 'halted' | 'input ended' | 'workspace' | 'steps';
    /**
     * the steps of the whole run so far
     */
    steps: bigint;
    /**
     * the greatest need of a step of the whole run so far, in cells
     */
    peak: number;
    /**
     * what was printed in this turn; left out of JSON
     */
    output: Uint8Array;
    /**
     * the same, read as UTF-8, after the bytes of a character that earlier turns cut; a character
     * that this turn cuts is in the text of the next turn
     */
    text: string;
    /**
     * how many bytes of this input were read: give the others again at the next turn, with more
     * bytes after them
     */
    consumed: number;
};
/**
 * What is shown of a run.
 */
export type Views = {
    /**
     * the first step that is shown, from 1; 1 if left out
     */
    from?: number | bigint;
    /**
     * the last step that is shown, up to 2^64 - 1; 2^64 - 1 if left out
     */
    to?: number | bigint;
    /**
     * shows the calls that are performed instead of the steps
     */
    calls?: boolean;
    /**
     * shows the forms that change, and all forms at the end, instead of the steps
     */
    forms?: boolean;
    /**
     * the maximum number of bytes of a text, and of cells of a string, 0 for all, up to
     * 16777216; 100 if left out
     */
    width?: number;
    /**
     * the maximum number of columns of a line, 0 for any number, up to 16777216; 0 if left out
     */
    columns?: number;
};
/**
 * Makes a step as a turn with `most` 1 does, and also gives its lines: after a heading if it is the first step, and
 * before the lines on how the run ended if it is the last step. There are no lines if it wants input; it never wants
 * output. Each later step says again how the run ended.
 */
export type TraceStep = (input?: string | Uint8Array | ArrayBuffer, how?: {
    ended?: boolean;
}) => TurnReport & {
    lines: string;
};
/**
 * A run that is shown, step by step. Made by `Session.trace`.
 */
export type Trace = {
    /**
     * makes a step, and gives its lines
     */
    step: TraceStep;
};
/**
 * A form in its current state.
 */
export type StoredForm = {
    name: Uint8Array;
    /**
     * the body as `pf` shows it: `<N>` for a gap, and `<^>` at the pointer
     */
    text: Uint8Array;
    /**
     * the body item by item: 0 to 255 is a byte, 255 + N the gap with the ordinal N
     */
    items: Uint32Array;
    /**
     * how many items precede the form's pointer
     */
    pointer: number;
};
/**
 * The state of a machine at some time, for `rewind`.
 */
export type Snapshot = {
    cells: number;
    machine: Uint8Array;
    /**
     * the pages of the block in which some word isn't 0,
     * each with the number of words before it; null if there was no turn yet, so that the block is still empty
     */
    pages: {
        place: number;
        words: Uint32Array;
    }[] | null;
    steps: bigint;
    /**
     * the bytes of a character that the last turn cut
     */
    cut: Uint8Array;
};
/**
 * A function of the language: its name, a call, a description, and what is true of all its calls.
 */
export type LanguageFunction = {
    /**
     * its name, in letters of lower case
     */
    name: string;
    /**
     * a call of it without the marks, with letters for arguments: `cs,N,Z`
     */
    call: string;
    /**
     * what the name is short for
     */
    title: string;
    /**
     * what it does, in one sentence with the letters of its call
     */
    sentence: string;
    /**
     * the heading under which the manual describes it
     */
    group: string;
    /**
     * how many arguments after its name it uses; Infinity if all
     */
    uses: number;
    /**
     * the forms that a call concerns: none, the form that its first
     * argument names, the forms that its arguments name, or all
     */
    forms: 'none' | 'first' | 'each' | 'all';
    /**
     * whether a call does nothing if its first argument is the name of no form
     */
    needsForm: boolean;
    /**
     * whether a call can make, change or remove the forms that it concerns
     */
    changesForms: boolean;
    /**
     * which part of a form is its value
     */
    gives: 'nothing' | 'body' | 'part';
    /**
     * which argument is its default value; 0 if it has none
     */
    defaultArgument: number;
    /**
     * whether its value is its third or its fourth argument
     */
    chooses: boolean;
    /**
     * whether it reads
     */
    reads: boolean;
    /**
     * whether it can print
     */
    prints: boolean;
    /**
     * whether it can change the meta character
     */
    changesMeta: boolean;
    /**
     * whether it ends the run
     */
    ends: boolean;
};
/**
 * Where the value of a call comes from.
 */
export type ValueSource = {
    /**
     * nothing: the value is null, the call
     * ends the run, or the step performs no call; an argument; the body of the form that the first argument names, from its
     * pointer on, with the arguments in its gaps; the part of that body that the pointer passes over in the step, forward
     * or backward, without the gaps; the input; or made by the function
     */
    kind: 'nothing' | 'argument' | 'body' | 'part' | 'input' | 'made';
    /**
     * the number of the argument that is the value, or, for a part, that is the value if the
     * pointer stays; 0 for the other kinds
     */
    argument: number;
    /**
     * how many of the items that the pointer passes over at last are no part of the value: for
     * a search as many as the text has that it looks for, and otherwise 0
     */
    sought: number;
};
