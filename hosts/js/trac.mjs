/**
 * TRAC T-64 in WebAssembly, for browsers and Node. The file trac.wasm is beside this one.
 *
 * The module is made from a proved library. Not proved are this file, binaryen, which converts the module to 32-bit
 * memory, and the host that runs it.
 * @module
 */

/** The version of this release. */
export const VERSION = '@VERSION@';

/** The most cells that a workspace may have. */
export const MOST_CELLS = 16777216;

const CELL_SIZE = 8;
const CODE_SIZE = 4;
const WORDS_IN_CELL = 2;
/** The words of 32 bits in a page of a block. */
const PAGE_WORDS = 16384;
/** How many words one test looks at. */
const WORDS_AT_ONCE = 64;
const REPORT_SIZE = 40;
const LARGEST = 2n ** 64n - 1n;
const REFUSED = 9;
const GOING = 0;
const WANTS_OUTPUT = 8;
const NO_MEMORY = 10;
const WANTS_ANSWER = 11;
/** The numbers that say where the value goes that the host gives to a call. */
const DELIVERIES = ['by mode', 'scanned', 'unscanned'];
/** The bytes of a unit of the memory for lists, and the initial number of bytes for the lines of a check. */
const LIST_UNIT = 16;
const LEAST_LINES = 2 ** 16;
/**
 * The bytes of a trace in the engine, the place of the number of its lines' bytes, and the greatest width of a line.
 */
const TRACE_SIZE = 96;
const TRACE_LINES = 40;
const MOST_WIDTH = 16777216;
/** The bytes for the lists of a shown step, and as many for its lines: a fixed number, and more for each cell. */
const STEP_LISTS = 2 ** 20;
const LISTS_OF_A_CELL = 256;
const MOST_STEP_LISTS = 2 ** 28;
const WARNING = /^line (\d+), column (\d+): (.*)$/s;
/** The fates of a turn after which its run goes on. */
const ON_ITS_WAY = new Set(['going', 'wants input', 'wants output', 'wants answer']);
const FATE_NAMES = ['going', 'halted', 'input ended', 'workspace', 'steps', 'input failed',
    'output failed', 'wants input', 'wants output', 'refused', 'no memory', 'wants answer'];
const RULE_NAMES = ['idling', 'layout', 'protection', 'argument', 'active call', 'neutral call',
    'number sign', 'end of call', 'character'];
const AWAITED_NAMES = ['nothing', 'text', 'byte'];
const PART_NAMES = ['store', 'neutral', 'free', 'active'];
/** What the numbers of the table of functions mean; the last is the number for all arguments. */
const CONCERNED_NAMES = ['none', 'first', 'each', 'all'];
const GIVEN_NAMES = ['nothing', 'body', 'part'];
const SOURCE_NAMES = ['nothing', 'argument', 'body', 'part', 'input', 'made'];
const ALL_ARGUMENTS = 2 ** 32 - 1;

/**
 * The result of a run.
 * @typedef {object} Report
 * @property {'halted' | 'input ended' | 'workspace' | 'steps'} fate how it ended: the script called `hl`, or asked for
 * input after its end; a step needs more cells than there are; the allowance is used up
 * @property {bigint} steps the steps done; in JSON a number, or a string if no number is exact
 * @property {number} peak the greatest need of a step, in cells: the smallest number of cells for the same run
 * @property {Uint8Array} output what the script printed; left out of JSON
 * @property {string} text the same, read as UTF-8; a byte order mark stays
 * @property {number} consumed how many bytes of the script were read
 */

/**
 * The bytes of trac.wasm that `provide` was given.
 * @type {Uint8Array | ArrayBuffer | undefined}
 */
let provided;

/**
 * The module, compiled once.
 * @type {Promise<WebAssembly.Module> | undefined}
 */
let compiled;

/**
 * Gives this file the bytes of trac.wasm, for a page or a program that contains them. If it is called first, `run` and
 * `Session.open` don't look for the file. If the bytes are no module, the `run` or `Session.open` that uses them
 * throws.
 * @param {Uint8Array | ArrayBuffer} bytes
 * @throws {TypeError} if they are no bytes
 */
export function provide(bytes) {
    provided = copied('bytes', bytes);
    compiled = undefined;
}

/**
 * The module. If loading fails, the next call tries again.
 * @returns {Promise<WebAssembly.Module>}
 */
function engine() {
    compiled ??= loaded().catch((error) => {
        compiled = undefined;
        throw error;
    });
    return compiled;
}

/**
 * The module, from the bytes that `provide` was given or from the file.
 * @returns {Promise<WebAssembly.Module>}
 */
async function loaded() {
    if (provided) return WebAssembly.compile(provided);
    const place = new URL('trac.wasm', import.meta.url);
    if (place.protocol === 'file:' && globalThis.process?.versions?.node) {
        const files = 'node:fs/promises';
        const { readFile } = await import(files);
        return WebAssembly.compile(await readFile(place));
    }
    const answer = await fetch(place);
    if (!answer.ok) throw new Error(`${place}: ${answer.status}`);
    return WebAssembly.compile(await answer.arrayBuffer());
}

/**
 * A whole number in a range, as a BigInt.
 * @param {string} name
 * @param {number | bigint} value
 * @param {bigint} least
 * @param {bigint} most
 * @returns {bigint}
 */
function whole(name, value, least, most) {
    if (typeof value !== 'bigint' && !Number.isInteger(value)) {
        throw new TypeError(`${name} must be a whole number`);
    }
    const number = BigInt(value);
    if (number < least || number > most) {
        throw new RangeError(`${name} must be from ${least} to ${most}`);
    }
    return number;
}

/**
 * The memory of a fresh instance, whose parts are allocated from the front. Behind the module's own data, where they
 * stand, each byte of a fresh memory is 0.
 */
class Room {
    /** @param {WebAssembly.Instance} instance */
    constructor(instance) {
        this.exports = /** @type {any} */ (instance.exports);
        this.next = BigInt(this.exports.__heap_base.value);
    }

    /**
     * The place of a part with this number of bytes.
     * @param {number} bytes
     */
    take(bytes) {
        const place = (this.next + 15n) & ~15n;
        this.next = place + BigInt(bytes);
        return place;
    }

    /** Allocates the memory for all parts; may throw a RangeError. */
    reserve() {
        const missing = Number(this.next) - this.exports.memory.buffer.byteLength;
        if (missing > 0) this.exports.memory.grow(Math.ceil(missing / 65536));
    }
}

/**
 * A copy of bytes.
 * @param {string} name
 * @param {unknown} bytes
 * @returns {Uint8Array}
 */
function copied(name, bytes) {
    if (bytes instanceof Uint8Array) return bytes.slice();
    if (bytes instanceof ArrayBuffer) return new Uint8Array(bytes.slice(0));
    throw new TypeError(`${name} must be a Uint8Array or an ArrayBuffer`);
}

/**
 * The bytes of a text; a string is encoded in UTF-8.
 * @param {string} name
 * @param {string | Uint8Array | ArrayBuffer} text
 * @returns {Uint8Array}
 */
function bytesOf(name, text) {
    if (typeof text === 'string') return new TextEncoder().encode(text);
    if (text instanceof Uint8Array || text instanceof ArrayBuffer) return copied(name, text);
    throw new TypeError(`${name} must be a string, a Uint8Array or an ArrayBuffer`);
}

/**
 * Refuses options of other names.
 * @param {object} options
 * @param {string[]} names
 */
function known(options, names) {
    for (const name of Object.keys(options)) {
        if (!names.includes(name)) throw new TypeError(`there is no option ${name}`);
    }
}

/**
 * How many bytes precede an incomplete character at the end; all bytes if no character is cut.
 * @param {Uint8Array} bytes
 * @returns {number}
 */
function wholeCharacters(bytes) {
    for (let back = 1; back <= Math.min(3, bytes.length); back += 1) {
        const byte = bytes[bytes.length - back];
        if (byte >= 0xc0) {
            const length = byte >= 0xf0 ? 4 : byte >= 0xe0 ? 3 : 2;
            return bytes.length - (length > back ? back : 0);
        }
        if (byte < 0x80) break;
    }
    return bytes.length;
}

/**
 * Bytes read as UTF-8; a byte order mark stays.
 * @param {Uint8Array} bytes
 * @returns {string}
 */
function textOf(bytes) {
    return new TextDecoder('utf-8', { ignoreBOM: true }).decode(bytes);
}

/**
 * A report that can be written as JSON: its steps are a number, or a string if no number is exact.
 * @template {{steps: bigint}} T
 * @param {T} report
 * @returns {T}
 */
function withJson(report) {
    return Object.defineProperty(report, 'toJSON', {
        value() {
            const { output, steps, ...rest } = this;
            const exact = steps <= BigInt(Number.MAX_SAFE_INTEGER);
            return { ...rest, steps: exact ? Number(steps) : String(steps) };
        },
    });
}

/**
 * Reads what the engine wrote into a report.
 * @param {ArrayBuffer} buffer
 * @param {bigint} place
 */
function reportAt(buffer, place) {
    const told = new DataView(buffer, Number(place), REPORT_SIZE);
    return {
        fate: told.getUint32(0, true),
        peak: told.getUint32(4, true),
        steps: told.getBigUint64(8, true),
        written: Number(told.getBigUint64(16, true)),
        consumed: Number(told.getBigUint64(24, true)),
        wanted: Number(told.getBigUint64(32, true)),
    };
}

/**
 * The limits of a run.
 * @param {{cells?: number, steps?: number | bigint}} limits
 */
function limitsOf(limits) {
    known(limits, ['cells', 'steps']);
    const { cells = 65536, steps = 1000000 } = limits;
    return {
        room: whole('cells', cells, 1n, BigInt(MOST_CELLS)),
        allowed: whole('steps', steps, 1n, LARGEST),
    };
}

/**
 * Runs a script to its end.
 * @param {string | Uint8Array | ArrayBuffer} script the script; of a string, its bytes in UTF-8
 * @param {object} [limits]
 * @param {number} [limits.cells] cells of the workspace, from 1 to 16777216; 65536 if left out
 * @param {number | bigint} [limits.steps] the steps allowed, from 1 to 2^64 - 1; 1000000 if left out
 * @returns {Promise<Report>}
 * @throws {TypeError} if the script is no text, a limit is no whole number, or an option is unknown
 * @throws {RangeError} if a limit is out of its range, or the memory can't be had
 */
export async function run(script, limits = {}) {
    const bytes = bytesOf('script', script);
    const session = await Session.open(limits);
    const parts = [];
    for (let from = 0; ;) {
        const told = session.turn(bytes.subarray(from), { ended: true });
        from += told.consumed;
        parts.push(told.output);
        if (!ON_ITS_WAY.has(told.fate)) {
            const output = joined(parts);
            const { steps, peak } = told;
            const fate = /** @type {Report['fate']} */ (told.fate);
            return withJson({ fate, peak, steps, output, text: textOf(output), consumed: from });
        }
    }
}

/**
 * Something suspicious in a script.
 * @typedef {object} Warning
 * @property {number} line its line, from 1
 * @property {number} column from 1, in characters
 * @property {string} text the message; for a place in the value of a form, also its place there
 */

/**
 * The result of a check: how the run ended, as in a `Report`, and what is suspicious.
 * @typedef {object} CheckReport
 * @property {Report['fate']} fate
 * @property {bigint} steps
 * @property {number} peak
 * @property {Warning[]} warnings in the order of their places
 */

/**
 * Runs a script to its end, and reports what is suspicious in it, by the rules of `trac_trace --warn`: names that are
 * no function, parentheses that end no call, and so on. The script's output isn't kept.
 * @param {string | Uint8Array | ArrayBuffer} script the script; of a string, its bytes in UTF-8
 * @param {object} [limits]
 * @param {number} [limits.cells] cells of the workspace, from 1 to 16777216; 65536 if left out
 * @param {number | bigint} [limits.steps] the steps allowed, from 1 to 2^64 - 1; 1000000 if left out
 * @returns {Promise<CheckReport>}
 * @throws {TypeError} if the script is no text, a limit is no whole number, or an option is unknown
 * @throws {RangeError} if a limit is out of its range, or the memory can't be had
 */
export async function check(script, limits = {}) {
    const bytes = bytesOf('script', script);
    const { room, allowed } = limitsOf(limits);
    const compiledEngine = await engine();
    // the arguments of a call are the longest list, and this list can have twice its size while it grows
    const most = 2 * CELL_SIZE * Number(room);
    for (let [lists, lines] = [2 ** 20 + Math.min(most, 2 ** 26), LEAST_LINES]; ;) {
        const told = checked(await WebAssembly.instantiate(compiledEngine, {}), bytes, room, allowed, lists, lines);
        if (told.fate === NO_MEMORY) lists *= 4;
        else if (told.wanted > told.written) lines = told.wanted;
        else return withJson(checkReport(told));
    }
}

/**
 * Reads what the engine wrote about a check, and its lines.
 * @param {WebAssembly.Instance} instance a fresh one
 * @param {Uint8Array} script
 * @param {bigint} room
 * @param {bigint} allowed
 * @param {number} lists the bytes for its lists
 * @param {number} lines the bytes for its lines
 */
function checked(instance, script, room, allowed, lists, lines) {
    const memory = new Room(instance);
    const [report, block, input, listed, written] = [
        REPORT_SIZE, Number(room) * CELL_SIZE, script.length, lists, lines].map((size) => memory.take(size));
    memory.reserve();
    const { exports } = memory;
    new Uint8Array(exports.memory.buffer, Number(input), script.length).set(script);
    exports.trac_engine_check_zeroed(report, block, room, allowed, input, BigInt(script.length),
        listed, BigInt(Math.floor(lists / LIST_UNIT)), written, BigInt(lines));
    const told = reportAt(exports.memory.buffer, report);
    const text = textOf(new Uint8Array(exports.memory.buffer, Number(written), told.written).slice());
    return { ...told, text };
}

/**
 * The report of a check.
 * @param {ReturnType<typeof checked>} told
 * @returns {CheckReport}
 */
function checkReport({ fate, steps, peak, text }) {
    const warnings = text.split('\n').map((each) => WARNING.exec(each)).filter((found) => found !== null)
        .map(([, line, column, words]) => ({ line: Number(line), column: Number(column), text: words }));
    return { fate: /** @type {Report['fate']} */ (FATE_NAMES[fate]), steps, peak, warnings };
}

/**
 * The trace's words of memory before its first step.
 * @param {Views} views
 */
function traceWords(views) {
    known(views, ['from', 'to', 'calls', 'forms', 'width', 'columns']);
    const { from = 1, to = LARGEST, calls = false, forms = false, width = 100, columns = 0 } = views;
    const words = new Uint8Array(TRACE_SIZE);
    const numbers = new DataView(words.buffer);
    numbers.setBigUint64(0, whole('from', from, 1n, LARGEST), true);
    numbers.setBigUint64(8, whole('to', to, 1n, LARGEST), true);
    [whole('width', width, 0n, BigInt(MOST_WIDTH)), whole('columns', columns, 0n, BigInt(MOST_WIDTH)),
        calls ? 1 : 0, forms ? 1 : 0].forEach((value, i) => numbers.setUint32(16 + 4 * i, Number(value), true));
    return words;
}

/**
 * A part of a session's memory that grows when more is needed; its content is then lost.
 */
class Buffer {
    /** @param {Room} memory */
    constructor(memory) {
        this.memory = memory;
        this.place = 0n;
        this.size = 0;
    }

    /**
     * Its place, with room for this number of bytes; may throw a RangeError.
     * @param {number} bytes
     */
    of(bytes) {
        if (bytes > this.size || !this.size) {
            const size = Math.max(bytes, 2 * this.size, 4096);
            const before = this.memory.next;
            const place = this.memory.take(size);
            try {
                this.memory.reserve();
            } catch (error) {
                this.memory.next = before;
                throw error;
            }
            [this.place, this.size] = [place, size];
        }
        return this.place;
    }
}

/**
 * Joins rows of bytes.
 * @param {Uint8Array[]} rows
 */
function joined(rows) {
    if (rows.length === 1) return rows[0];
    const all = new Uint8Array(rows.reduce((sum, row) => sum + row.length, 0));
    let place = 0;
    for (const row of rows) {
        all.set(row, place);
        place += row.length;
    }
    return all;
}

/**
 * Whether all words are 0.
 * @param {Uint32Array} words
 */
function areZero(words) {
    for (let from = 0; from < words.length; from += WORDS_AT_ONCE) {
        const to = Math.min(from + WORDS_AT_ONCE, words.length);
        let found = 0;
        for (let place = from; place < to; place += 1) found |= words[place];
        if (found) return false;
    }
    return true;
}

/**
 * Copies the pages of a block in which some word isn't 0.
 * @param {Uint32Array} block
 */
function pagesOf(block) {
    const pages = [];
    for (let place = 0; place < block.length; place += PAGE_WORDS) {
        const page = block.subarray(place, place + PAGE_WORDS);
        if (!areZero(page)) pages.push({ place, words: page.slice() });
    }
    return pages;
}

/**
 * Whether something is what `pagesOf` gives for a block with this number of words, or null.
 * @param {unknown} pages
 * @param {number} length
 */
function arePages(pages, length) {
    return pages === null || (Array.isArray(pages) && pages.every((page) => (
        page?.words instanceof Uint32Array && Number.isInteger(page.place) && page.place >= 0
        && page.place + page.words.length <= length)));
}

/**
 * Restores a block from its pages.
 * @param {Uint32Array} block
 * @param {{place: number, words: Uint32Array}[]} pages
 */
function layPages(block, pages) {
    let from = 0;
    for (const { place, words } of pages) {
        block.fill(0, from, place);
        block.set(words, place);
        from = place + words.length;
    }
    block.fill(0, from);
}

/**
 * The result of a turn.
 * @typedef {object} TurnReport
 * @property {'going' | 'wants input' | 'wants output' | 'wants answer' | 'halted' | 'input ended' | 'workspace' |
 * 'steps'} fate `going` if all its steps were done and the run goes on; `wants input` if the next step reads more than
 * there is; `wants output` if there is no memory for what the next step prints; `wants answer` if the next step
 * performs a call of no function, and `stopAtUnknown` asked to stop there; in these three cases nothing of the next
 * step was done; otherwise how the run ended, as in a `Report`
 * @property {bigint} steps the steps of the whole run so far
 * @property {number} peak the greatest need of a step of the whole run so far, in cells
 * @property {Uint8Array} output what was printed in this turn; left out of JSON
 * @property {string} text the same, read as UTF-8, after the bytes of a character that earlier turns cut; a character
 * that this turn cuts is in the text of the next turn
 * @property {number} consumed how many bytes of this input were read: give the others again at the next turn, with more
 * bytes after them
 */

/**
 * What is shown of a run.
 * @typedef {object} Views
 * @property {number | bigint} [from] the first step that is shown, from 1; 1 if left out
 * @property {number | bigint} [to] the last step that is shown, up to 2^64 - 1; 2^64 - 1 if left out
 * @property {boolean} [calls] shows the calls that are performed instead of the steps
 * @property {boolean} [forms] shows the forms that change, and all forms at the end, instead of the steps
 * @property {number} [width] the maximum number of bytes of a text, and of cells of a string, 0 for all, up to
 * 16777216; 100 if left out
 * @property {number} [columns] the maximum number of columns of a line, 0 for any number, up to 16777216; 0 if left out
 */

/**
 * Makes a step as a turn with `most` 1 does, and also gives its lines: after a heading if it is the first step, and
 * before the lines on how the run ended if it is the last step. There are no lines if it wants input; it never wants
 * output. Each later step says again how the run ended.
 * @callback TraceStep
 * @param {string | Uint8Array | ArrayBuffer} [input] the bytes to read; of a string, its bytes in UTF-8
 * @param {{ended?: boolean}} [how] whether the input ends after these bytes; false if left out
 * @returns {TurnReport & {lines: string}}
 * @throws {TypeError} if the input is no text, or an option unknown
 * @throws {RangeError} if there is no memory for the input, the output or the lines. If the memory for the lines was
 * too small, which happens above some million cells, the error has a `report`, a TurnReport: it says whether the step
 * was made, what it read and what it printed, and only its lines are lost. Otherwise nothing was read or printed
 */

/**
 * A run that is shown, step by step. Made by `Session.trace`.
 * @typedef {object} Trace
 * @property {TraceStep} step makes a step, and gives its lines
 */

/**
 * A form in its current state.
 * @typedef {object} StoredForm
 * @property {Uint8Array} name
 * @property {Uint8Array} text the body as `pf` shows it: `<N>` for a gap, and `<^>` at the pointer
 * @property {Uint32Array} items the body item by item: 0 to 255 is a byte, 255 + N the gap with the ordinal N
 * @property {number} pointer how many items precede the form's pointer
 */

/**
 * The state of a machine at some time, for `rewind`.
 * @typedef {object} Snapshot
 * @property {number} cells
 * @property {Uint8Array} machine
 * @property {{place: number, words: Uint32Array}[] | null} pages the pages of the block in which some word isn't 0,
 * each with the number of words before it; null if there was no turn yet, so that the block is still empty
 * @property {bigint} steps
 * @property {Uint8Array} cut the bytes of a character that the last turn cut
 */

/**
 * A function of the language: its name, a call, a description, and what is true of all its calls.
 * @typedef {object} LanguageFunction
 * @property {string} name its name, in letters of lower case
 * @property {string} call a call of it without the marks, with letters for arguments: `cs,N,Z`
 * @property {string} title what the name is short for
 * @property {string} sentence what it does, in one sentence with the letters of its call
 * @property {string} group the heading under which the manual describes it
 * @property {number} uses how many arguments after its name it uses; Infinity if all
 * @property {'none' | 'first' | 'each' | 'all'} forms the forms that a call concerns: none, the form that its first
 * argument names, the forms that its arguments name, or all
 * @property {boolean} needsForm whether a call does nothing if its first argument is the name of no form
 * @property {boolean} changesForms whether a call can make, change or remove the forms that it concerns
 * @property {'nothing' | 'body' | 'part'} gives which part of a form is its value
 * @property {number} defaultArgument which argument is its default value; 0 if it has none
 * @property {boolean} chooses whether its value is its third or its fourth argument
 * @property {boolean} reads whether it reads
 * @property {boolean} prints whether it can print
 * @property {boolean} changesMeta whether it can change the meta character
 * @property {boolean} ends whether it ends the run
 */

/**
 * Where the value of a call comes from.
 * @typedef {object} ValueSource
 * @property {'nothing' | 'argument' | 'body' | 'part' | 'input' | 'made'} kind nothing: the value is null, the call
 * ends the run, or the step performs no call; an argument; the body of the form that the first argument names, from its
 * pointer on, with the arguments in its gaps; the part of that body that the pointer passes over in the step, forward
 * or backward, without the gaps; the input; or made by the function
 * @property {number} argument the number of the argument that is the value, or, for a part, that is the value if the
 * pointer stays; 0 for the other kinds
 * @property {number} sought how many of the items that the pointer passes over at last are no part of the value: for
 * a search as many as the text has that it looks for, and otherwise 0
 */

/**
 * A machine with its own memory: scripts are run in turns, and the forms stay from one script to the next. Made by
 * `Session.open`.
 */
export class Session {
    /**
     * Opens a session whose machine has no forms.
     * @param {object} [limits]
     * @param {number} [limits.cells] cells of the workspace, from 1 to 16777216; 65536 if left out
     * @param {number | bigint} [limits.steps] the steps allowed, from 1 to 2^64 - 1; 1000000 if left out
     * @returns {Promise<Session>}
     * @throws {TypeError} if a limit is no whole number, or an option unknown
     * @throws {RangeError} if a limit is out of its range, or the memory can't be had
     */
    static async open(limits = {}) {
        const { room, allowed } = limitsOf(limits);
        return new Session(await WebAssembly.instantiate(await engine(), {}), room, allowed);
    }

    #memory;

    #engine;

    #cells;

    #steps = 0n;

    #used = false;

    #stops = false;

    /** @type {Map<string, (...args: Uint8Array[]) => string | Uint8Array | ArrayBuffer | null | undefined>} */
    #functions = new Map();

    /** @type {TurnReport | undefined} */
    #interrupted;

    #busy = false;

    #cut = new Uint8Array(0);

    #machineSize;

    #machine;

    #report;

    #block;

    #input;

    #output;

    #value;

    #trace;

    #lists;

    #lines;

    /**
     * Use `Session.open`.
     * @param {WebAssembly.Instance} instance
     * @param {bigint} cells
     * @param {bigint} steps
     */
    constructor(instance, cells, steps) {
        this.#memory = new Room(instance);
        this.#engine = /** @type {any} */ (instance.exports);
        this.#cells = Number(cells);
        this.#machineSize = Number(this.#engine.trac_engine_machine_size());
        this.#machine = this.#memory.take(this.#machineSize);
        this.#report = this.#memory.take(REPORT_SIZE);
        this.#block = this.#memory.take(this.#cells * CELL_SIZE);
        this.#memory.reserve();
        this.#input = new Buffer(this.#memory);
        this.#output = new Buffer(this.#memory);
        this.#value = new Buffer(this.#memory);
        this.#trace = new Buffer(this.#memory);
        this.#lists = new Buffer(this.#memory);
        this.#lines = new Buffer(this.#memory);
        if (this.#engine.trac_engine_open_zeroed(this.#machine, this.#block, cells, steps) === REFUSED) {
            throw new RangeError(`cells must be from 1 to ${MOST_CELLS}`);
        }
    }

    /**
     * Makes steps over a piece of input, up to a given number.
     * @param {string | Uint8Array | ArrayBuffer} [input] the bytes to read; of a string, its bytes in UTF-8
     * @param {object} [how]
     * @param {boolean} [how.ended] whether the input ends after these bytes; false if left out
     * @param {number | bigint} [how.most] the maximum number of steps of this turn; without a bound if left out
     * @returns {TurnReport}
     * @throws {TypeError} if the input is no text, `most` no whole number, or an option unknown
     * @throws {RangeError} if `most` is out of its range, or the memory for the input or the output can't be had;
     * nothing was read or printed then
     */
    turn(input = '', how = {}) {
        this.#idle();
        known(how, ['ended', 'most']);
        const { ended = false, most = LARGEST } = how;
        const bytes = bytesOf('input', input);
        let left = whole('most', most, 0n, LARGEST);
        const place = this.#input.of(bytes.length);
        this.#bytes(place, bytes.length).set(bytes);
        let consumed = 0;
        const printed = [];
        for (;;) {
            const before = this.#steps;
            let told = this.#part(place + BigInt(consumed), bytes.length - consumed, ended, left);
            consumed += told.consumed;
            printed.push(told.output);
            let goesOn = told.fate === WANTS_OUTPUT && this.#hasOutput(told, printed);
            if (told.fate === WANTS_ANSWER) {
                const value = this.#valueOf(told, printed, consumed);
                if (value) told = { ...told, ...this.#answered(value, 0) };
                goesOn = told.fate === GOING;
            }
            left -= told.steps - before;
            if (!goesOn) return this.#reportOf(told, joined(printed), consumed);
        }
    }

    /**
     * Functions of the host, by name. If the name of a call is no function of the language, a turn calls the function
     * with this name, with the arguments after the name as bytes. It returns the value of the call: a string, bytes, or
     * nothing for the null value. If it throws an error, the turn ends and throws that error: `interrupted` then says
     * what the turn read and printed, and the call isn't performed yet. The function may not use the session that calls
     * it.
     * @type {Map<string, (...args: Uint8Array[]) => string | Uint8Array | ArrayBuffer | null | undefined>}
     */
    get functions() {
        return this.#functions;
    }

    /**
     * The result of the last turn that a function of the host ended by an error.
     * @type {TurnReport | undefined}
     */
    get interrupted() {
        return this.#interrupted;
    }

    /**
     * Makes turns stop, with the fate `wants answer`, before each call whose name is neither a function of the language
     * nor in `functions`: `argument` gives the call, and `answer` makes its step.
     * @param {boolean} [stops] true if left out
     */
    stopAtUnknown(stops = true) {
        this.#idle();
        this.#stops = stops;
    }

    /**
     * Makes the next step, which performs a call whose name is no function, with this value.
     * @param {string | Uint8Array | ArrayBuffer} value
     * @param {'by mode' | 'scanned' | 'unscanned'} [how] where the value goes: `by mode`, which is the default, as the
     * language says, so that it is scanned again after `#(` and not after `##(`; `scanned`, so that it is scanned
     * again; or `unscanned`, so that it never is, for data from outside
     * @returns {TurnReport}
     * @throws {TypeError} if the value is no text, or `how` is unknown
     * @throws {RangeError} if the next step performs no such call, or the run is over; then nothing has changed
     */
    answer(value, how = 'by mode') {
        this.#idle();
        const number = DELIVERIES.indexOf(how);
        if (number < 0) throw new TypeError(`there is no way ${how} to give a value`);
        const told = this.#answered(bytesOf('value', value), number);
        if (told.fate === REFUSED) throw new RangeError('no call waits for a value');
        return this.#reportOf(told, new Uint8Array(0), 0);
    }

    /**
     * Makes a form from a name, the items of a body and a pointer, without a step. It becomes the last form, and an
     * older form of that name is removed.
     * @param {string | Uint8Array | ArrayBuffer} name
     * @param {string | Uint8Array | ArrayBuffer | Uint32Array} body a text, or items as `forms` gives them
     * @param {number} [pointer] how many items precede the form's pointer; 0 if left out
     * @throws {TypeError} if the name or the body is of another type
     * @throws {RangeError} if an item or the pointer is out of range, or the form doesn't fit; then nothing has changed
     */
    define(name, body, pointer = 0) {
        this.#idle();
        const codes = body instanceof Uint32Array ? body : Uint32Array.from(bytesOf('body', body));
        const place = whole('pointer', pointer, 0n, LARGEST);
        const bytes = bytesOf('name', name);
        const [at, to] = [this.#input.of(bytes.length), this.#output.of(codes.length * CODE_SIZE)];
        this.#bytes(at, bytes.length).set(bytes);
        new Uint32Array(this.#engine.memory.buffer, Number(to), codes.length).set(codes);
        this.#used = true;
        this.#taken(this.#engine.trac_engine_define(this.#machine, at, BigInt(bytes.length), to,
            BigInt(codes.length), place), 'the form does not fit, or an item or the pointer is out of range');
    }

    /**
     * Removes the form with a name, without a step.
     * @param {string | Uint8Array | ArrayBuffer} name
     * @returns {boolean} whether there was one
     */
    delete(name) {
        this.#idle();
        const bytes = bytesOf('name', name);
        const at = this.#input.of(bytes.length);
        this.#bytes(at, bytes.length).set(bytes);
        return this.#engine.trac_engine_delete(this.#machine, at, BigInt(bytes.length)) !== REFUSED;
    }

    /** Removes all forms, without a step. */
    deleteAll() {
        this.#idle();
        this.#engine.trac_engine_delete_all(this.#machine);
    }

    /**
     * The image of the forms, with their gaps and pointers, and of the meta character: bytes that are the same on
     * every machine, for storage or for another session. The strings are no part of it.
     * @returns {Uint8Array}
     */
    save() {
        return this.#text((to, room) => this.#engine.trac_engine_save(this.#machine, to, room));
    }

    /**
     * Takes an image, as `save` gives it: its forms and its meta character take the place of the session's own. The
     * run goes on where it stands.
     * @param {Uint8Array | ArrayBuffer} image
     * @throws {TypeError} where it is no bytes
     * @throws {RangeError} where the bytes are no whole image, or its forms don't fit beside the strings; nothing has
     * changed
     */
    restore(image) {
        this.#idle();
        if (typeof image === 'string') throw new TypeError('image must be bytes');
        const bytes = bytesOf('image', image);
        const at = this.#input.of(bytes.length);
        this.#bytes(at, bytes.length).set(bytes);
        this.#used = true;
        this.#taken(this.#engine.trac_engine_load(this.#machine, at, BigInt(bytes.length)),
            'the bytes are no image of forms, or its forms do not fit');
    }

    /**
     * The run from here on as lines, which are those of `trac_trace`. A trace belongs to one run: after `again`, begin
     * another trace. The report of a step has the peak of the whole trace; the peak of the session counts from 0 again.
     * @param {Views} [views] what is shown
     * @returns {Trace}
     * @throws {TypeError} if a number is no whole number, or an option unknown
     * @throws {RangeError} if a number is out of its range
     */
    trace(views = {}) {
        const words = traceWords(views);
        return { step: (input = '', how = {}) => this.#show(words, bytesOf('input', input), how) };
    }

    /**
     * Begins a new run with this allowance: both strings are cleared, with the open calls, and the steps and the peak
     * count from 0. The forms with their pointers and the meta character stay.
     * @param {number | bigint} [steps] from 1 to 2^64 - 1; 1000000 if left out
     * @throws {RangeError} if the number is out of its range
     */
    again(steps = 1000000) {
        this.#idle();
        this.#engine.trac_engine_again(this.#machine, whole('steps', steps, 1n, LARGEST));
        this.#steps = 0n;
    }

    /**
     * The peak, in cells, which then counts from 0 again: if you call this after each step, it gives what that step
     * needed.
     * @returns {number}
     */
    takePeak() {
        return this.#engine.trac_engine_take_peak(this.#machine);
    }

    /** How many forms there are. */
    formCount() {
        return Number(this.#engine.trac_engine_form_count(this.#machine));
    }

    /**
     * The forms, in the order in which they were defined.
     * @param {number} [most] the maximum number, from the first; all if left out
     * @returns {StoredForm[]}
     */
    forms(most = Infinity) {
        const { trac_engine_form_name: name, trac_engine_form_text: text } = this.#engine;
        const { trac_engine_form_codes: codes, trac_engine_form_pointer: pointer } = this.#engine;
        return Array.from({ length: Math.min(this.formCount(), most) }, (_, i) => {
            const k = BigInt(i);
            this.#engine.trac_engine_turn_to_form(this.#machine, k);
            return {
                name: this.#text((to, room) => name(this.#machine, k, to, room)),
                text: this.#text((to, room) => text(this.#machine, k, to, room)),
                items: this.#codes((to, room) => codes(this.#machine, k, to, room)),
                pointer: Number(pointer(this.#machine, k)),
            };
        });
    }

    /**
     * The neutral string: the base text, and then for each open call its mark and its arguments.
     * @returns {Uint32Array} 0 to 255 is a byte, 256 the mark of an active call, 257 that of a neutral
     * call, 258 the mark between two arguments
     */
    neutral() {
        return this.neutralPart(0);
    }

    /**
     * A part of the neutral string.
     * @param {number} from the place of its first code, from 0
     * @param {number} [most] the maximum number of codes; all from there on if left out
     * @returns {Uint32Array} as `neutral` gives them; none past the end
     */
    neutralPart(from, most = Infinity) {
        const place = whole('from', from, 0n, LARGEST);
        return this.#codes(
            (to, room) => this.#engine.trac_engine_neutral_part(this.#machine, place, to, room), most);
    }

    /**
     * The active string.
     * @param {number} [most] the maximum number of characters, from the first; all if left out
     * @returns {Uint32Array} a byte each, from 0 to 255
     */
    active(most = Infinity) {
        return this.activePart(0, most);
    }

    /**
     * A part of the active string.
     * @param {number} from the place of its first character, from 0
     * @param {number} [most] the maximum number of characters; all from there on if left out
     * @returns {Uint32Array} a byte each; none past the end
     */
    activePart(from, most = Infinity) {
        const place = whole('from', from, 0n, LARGEST);
        return this.#codes(
            (to, room) => this.#engine.trac_engine_active_part(this.#machine, place, to, room), most);
    }

    /** How many calls are open. */
    callCount() {
        return Number(this.#engine.trac_engine_calls(this.#machine, this.#output.of(1), 0n));
    }

    /**
     * The open calls, the innermost first: the place of each call's mark in the neutral string. Its arguments follow
     * the mark, up to the mark of the next call or to the end.
     * @param {number} [most] the maximum number; all if left out
     * @returns {Uint32Array}
     */
    calls(most = Infinity) {
        return this.#codes(
            (to, room) => this.#engine.trac_engine_calls(this.#machine, to, room), most);
    }

    /**
     * The number of arguments of the call that the next step performs, including its name and null arguments: one more
     * than it has comma marks. 0 if that step performs no call, if the run is over, or if the allowance is used up.
     */
    argumentCount() {
        return Number(this.#engine.trac_engine_argument_count(this.#machine));
    }

    /**
     * An argument of the call that the next step performs: the bytes that the call gets, after all calls in it.
     * @param {number} which 0 is the name
     * @param {number} [most] the maximum number of bytes, from the first; all if left out
     * @returns {Uint8Array} no bytes if there is no such argument
     * @throws {TypeError} if `which` is no whole number
     * @throws {RangeError} if it is out of its range
     */
    argument(which, most = Infinity) {
        const number = whole('which', which, 0n, LARGEST);
        return this.#text(
            (to, room) => this.#engine.trac_engine_argument(this.#machine, number, to, room), most);
    }

    /**
     * Where the value of the call comes from that the next step performs. If your own function has the name, what that
     * gives doesn't count.
     * @returns {ValueSource}
     */
    valueSource() {
        const [kind, argument, sought] = [0, 1, 2].map(
            (which) => Number(this.#engine.trac_engine_value_source(this.#machine, which)));
        return { kind: /** @type {ValueSource['kind']} */ (SOURCE_NAMES[kind]), argument, sought };
    }

    /**
     * The functions of the language, in the order of the manual.
     * @returns {LanguageFunction[]}
     */
    language() {
        const count = Number(this.#engine.trac_engine_function_count());
        return Array.from({ length: count }, (_, which) => this.#function(BigInt(which)));
    }

    /**
     * How many characters the next step takes from the front of the active string: those that open a call; a text in
     * parentheses with both parentheses; all, if a left parenthesis has no match; none of an empty string; and
     * otherwise one.
     */
    takes() {
        return Number(this.#engine.trac_engine_takes(this.#machine));
    }

    /**
     * How many characters the next step drops: all of an active string that begins with a left parenthesis without a
     * match, and otherwise none.
     */
    drops() {
        return Number(this.#engine.trac_engine_drops(this.#machine));
    }

    /**
     * How many steps come before the next step at a right parenthesis, which performs a call if one is open, or at an
     * empty active string. None of these steps performs a call, reads or prints. They are counted as if the allowance
     * were unlimited.
     * @param {number | bigint} [most] the maximum number; without a bound if left out
     * @returns {number} never more than the active string has characters
     * @throws {TypeError} if `most` is no whole number
     * @throws {RangeError} if it is out of its range
     */
    stepsToCall(most = LARGEST) {
        return Number(this.#engine.trac_engine_steps_to_call(
            this.#machine, whole('most', most, 0n, LARGEST)));
    }

    /**
     * The rule of scanning that the next step applies.
     * @returns {string} by its name in the manual: idling, layout, protection, argument, active call, neutral call,
     * number sign, end of call or character
     */
    rule() {
        return RULE_NAMES[this.#engine.trac_engine_rule(this.#machine)];
    }

    /**
     * How many cells each part of the block has.
     * @returns {{store: number, neutral: number, free: number, active: number}}
     */
    parts() {
        const [store, neutral, free, active] = PART_NAMES.map(
            (_, i) => Number(this.#engine.trac_engine_part(this.#machine, i)));
        return { store, neutral, free, active };
    }

    /**
     * The meta character, a byte, which you can set. A value that is no whole number throws a TypeError; one that is
     * not from 0 to 255 throws a RangeError.
     * @type {number}
     */
    get meta() {
        return this.#engine.trac_engine_meta(this.#machine);
    }

    set meta(byte) {
        this.#idle();
        this.#engine.trac_engine_set_meta(this.#machine, Number(whole('meta', byte, 0n, 255n)));
    }

    /**
     * What the next step reads.
     * @returns {'nothing' | 'text' | 'byte'} `text` if it performs `rs`, `byte` if it performs `rc`
     */
    awaits() {
        const awaited = this.#engine.trac_engine_awaits(this.#machine);
        return /** @type {'nothing' | 'text' | 'byte'} */ (AWAITED_NAMES[awaited]);
    }

    /**
     * The whole machine with its strings, for `rewind`.
     * @returns {Snapshot}
     */
    snapshot() {
        return {
            cells: this.#cells,
            machine: this.#bytes(this.#machine, this.#machineSize).slice(),
            pages: this.#used ? pagesOf(this.#words()) : null,
            steps: this.#steps,
            cut: this.#cut.slice(),
        };
    }

    /**
     * Takes the machine back to a state of this session, or of another one that was opened with as many cells.
     * @param {Snapshot} snapshot
     * @throws {TypeError} if it isn't what `snapshot` gives
     * @throws {RangeError} if that session had another number of cells; then this one is as before
     */
    rewind(snapshot) {
        this.#idle();
        const { cells, machine, pages, steps, cut } = snapshot;
        if (cells !== this.#cells) throw new RangeError('the snapshot is of another number of cells');
        const isMachine = machine instanceof Uint8Array && machine.length === this.#machineSize;
        const isWhole = isMachine && arePages(pages, this.#words().length);
        if (!isWhole || typeof steps !== 'bigint' || !(cut instanceof Uint8Array)) {
            throw new TypeError('snapshot must be what snapshot() gives');
        }
        this.#bytes(this.#machine, this.#machineSize).set(machine);
        if (pages) layPages(this.#words(), pages);
        this.#used = pages !== null;
        this.#steps = steps;
        this.#cut = cut.slice();
    }

    /**
     * Makes a shown step. The words of its trace in memory change.
     * @param {Uint8Array} words
     * @param {Uint8Array} bytes
     * @param {{ended?: boolean}} how
     */
    #show(words, bytes, how) {
        this.#idle();
        known(how, ['ended']);
        const size = STEP_LISTS + Math.min(LISTS_OF_A_CELL * this.#cells, MOST_STEP_LISTS);
        const [trace, lists, lines, input] = [this.#trace.of(TRACE_SIZE), this.#lists.of(size), this.#lines.of(size),
            this.#input.of(bytes.length)];
        this.#bytes(input, bytes.length).set(bytes);
        this.#bytes(trace, TRACE_SIZE).set(words);
        let told;
        for (let wanted = 1; ; wanted = told.wanted) {
            const output = this.#output.of(wanted);
            this.#used = true;
            this.#engine.trac_engine_trace_step(this.#report, this.#machine, trace, input, BigInt(bytes.length), output,
                BigInt(this.#output.size), how.ended ? 1 : 0, lists, BigInt(Math.floor(size / LIST_UNIT)), lines,
                BigInt(size));
            told = reportAt(this.#engine.memory.buffer, this.#report);
            words.set(this.#bytes(trace, TRACE_SIZE));
            if (told.fate !== WANTS_OUTPUT) break;
        }
        this.#steps = told.steps;
        const isLost = told.fate === NO_MEMORY;
        const printed = this.#bytes(this.#output.place, told.written).slice();
        const report = this.#reportOf(isLost ? { ...told, fate: GOING } : told, printed, told.consumed);
        if (isLost) throw Object.assign(new RangeError('there is no memory for the lines of a step'), { report });
        const length = Number(new DataView(words.buffer).getBigUint64(TRACE_LINES, true));
        return Object.assign(report, { lines: textOf(this.#bytes(lines, length).slice()) });
    }

    /**
     * Whether there is room for what a turn wants to print. If nothing was done, a lack of memory is an error.
     * @param {{wanted: number, consumed: number}} told
     * @param {Uint8Array[]} printed
     */
    #hasOutput(told, printed) {
        try {
            this.#output.of(told.wanted);
            return true;
        } catch (error) {
            if (printed.length === 1 && !printed[0].length && !told.consumed) throw error;
            return false;
        }
    }

    /**
     * The report of a turn. If the run is over, the text includes the bytes of a cut character.
     * @param {{fate: number, steps: bigint, peak: number}} told
     * @param {Uint8Array} output
     * @param {number} consumed
     * @returns {TurnReport}
     */
    #reportOf({ fate, steps, peak }, output, consumed) {
        const name = /** @type {TurnReport['fate']} */ (FATE_NAMES[fate]);
        const bytes = joined([this.#cut, output]);
        const end = ON_ITS_WAY.has(name) ? wholeCharacters(bytes) : bytes.length;
        this.#cut = bytes.slice(end);
        return withJson(
            { fate: name, steps, peak, output, text: textOf(bytes.subarray(0, end)), consumed });
    }

    /**
     * A view of bytes of the memory, valid until it grows.
     * @param {bigint} place
     * @param {number} length
     */
    #bytes(place, length) {
        return new Uint8Array(this.#engine.memory.buffer, Number(place), length);
    }

    /** The block, as words of 32 bits; valid until the memory grows. */
    #words() {
        return new Uint32Array(
            this.#engine.memory.buffer, Number(this.#block), this.#cells * WORDS_IN_CELL);
    }

    /** Refuses a call of a host's function that uses the session that calls it. */
    #idle() {
        if (this.#busy) throw new Error('a function of the host may not use the session that calls it');
    }

    /**
     * Throws if the engine refused.
     * @param {number} answer
     * @param {string} reason
     */
    #taken(answer, reason) {
        if (answer === REFUSED) throw new RangeError(reason);
    }

    /**
     * The value of the call that waits for one, from the host's function with its name. None if there is no such
     * function, so that the turn stops there.
     * @param {{fate: number, steps: bigint, peak: number}} told
     * @param {Uint8Array[]} printed
     * @param {number} consumed
     */
    #valueOf(told, printed, consumed) {
        const called = this.functions.get(textOf(this.argument(0)));
        if (!called) return this.#stops ? undefined : new Uint8Array(0);
        const args = Array.from({ length: this.argumentCount() - 1 }, (_, i) => this.argument(i + 1));
        this.#busy = true;
        try {
            return bytesOf('the value of a function', called(...args) ?? '');
        } catch (error) {
            this.#interrupted = this.#reportOf(told, joined(printed), consumed);
            throw error;
        } finally {
            this.#busy = false;
        }
    }

    /**
     * Makes the step of a call with the value that the host gives.
     * @param {Uint8Array} value
     * @param {number} how
     */
    #answered(value, how) {
        const place = this.#value.of(value.length);
        this.#bytes(place, value.length).set(value);
        this.#used = true;
        this.#engine.trac_engine_answer(this.#report, this.#machine, place, BigInt(value.length), how);
        const told = reportAt(this.#engine.memory.buffer, this.#report);
        if (told.fate !== REFUSED) this.#steps = told.steps;
        return told;
    }

    /**
     * Makes steps over input in the memory, and gives what they printed.
     * @param {bigint} place
     * @param {number} length
     * @param {boolean} ended
     * @param {bigint} most
     */
    #part(place, length, ended, most) {
        const output = this.#output.of(1);
        this.#used = true;
        this.#engine.trac_engine_stop_at_unknown(this.#machine, this.#stops || this.functions.size ? 1 : 0);
        this.#engine.trac_engine_turn(this.#report, this.#machine, place, BigInt(length), output,
            BigInt(this.#output.size), ended ? 1 : 0, most);
        const told = reportAt(this.#engine.memory.buffer, this.#report);
        this.#steps = told.steps;
        return { ...told, output: this.#bytes(output, told.written).slice() };
    }

    /**
     * A function of the language.
     * @param {bigint} which
     * @returns {LanguageFunction}
     */
    #function(which) {
        const [name, call, title, sentence, group] = [0, 1, 2, 3, 4].map((kind) => textOf(this.#text(
            (to, room) => this.#engine.trac_engine_function_text(which, kind, to, room))));
        /** @param {number} fact */
        const number = (fact) => this.#engine.trac_engine_function_fact(which, fact) >>> 0;
        const uses = number(0);
        return {
            name, call, title, sentence, group,
            uses: uses === ALL_ARGUMENTS ? Infinity : uses,
            forms: /** @type {LanguageFunction['forms']} */ (CONCERNED_NAMES[number(1)]),
            needsForm: number(2) === 1,
            changesForms: number(3) === 1,
            gives: /** @type {LanguageFunction['gives']} */ (GIVEN_NAMES[number(4)]),
            defaultArgument: number(5),
            chooses: number(6) === 1,
            reads: number(7) === 1,
            prints: number(8) === 1,
            changesMeta: number(9) === 1,
            ends: number(10) === 1,
        };
    }

    /**
     * The bytes that a call writes; the call answers how many there are.
     * @param {(to: bigint, room: bigint) => bigint} call
     * @param {number} [most]
     */
    #text(call, most = Infinity) {
        const length = Math.min(Number(call(this.#output.of(1), 0n)), most);
        const place = this.#output.of(length);
        call(place, BigInt(length));
        return this.#bytes(place, length).slice();
    }

    /**
     * The codes that a call writes; the call answers how many there are.
     * @param {(to: bigint, room: bigint) => bigint} call
     * @param {number} [most]
     */
    #codes(call, most = Infinity) {
        const length = Math.min(Number(call(this.#output.of(CODE_SIZE), 0n)), most);
        const place = this.#output.of(length * CODE_SIZE);
        call(place, BigInt(length));
        return new Uint32Array(this.#engine.memory.buffer, Number(place), length).slice();
    }
}
