// What trac.mjs does with input that can't be used, with loads that fail, with texts that are cut, and
// with memory that can't be had: prints it as JSON.
import { readdirSync, readFileSync } from 'node:fs';
import { pathToFileURL } from 'node:url';

const place = pathToFileURL(process.argv[2]);
const { check, provide, run, Session } = await import(place);
const wasm = readFileSync(new URL('trac.wasm', place));
const broken = new URL('../examples/broken/', import.meta.url);

/** The name of the error of a call, with its words; null where it ends well. */
async function errorOf(call) {
    try {
        await call();
        return null;
    } catch (error) {
        return `${error.name}: ${error.message}`;
    }
}

const errors = {};
for (const [name, call] of Object.entries({
    script: () => run(12),
    scriptArray: () => run([35, 40]),
    cells: () => run('', { cells: 1.5 }),
    cellsText: () => run('', { cells: '10' }),
    cellsRange: () => run('', { cells: 0 }),
    stepsRange: () => Session.open({ steps: 2n ** 64n }),
    option: () => run('', { cell: 10 }),
    checked: () => check(12),
    views: async () => (await Session.open()).trace({ last: 3 }),
    viewsRange: async () => (await Session.open()).trace({ width: -1 }),
    bytes: () => provide('text'),
    input: async () => (await Session.open()).turn(null),
    how: async () => (await Session.open()).turn('', { end: true }),
    most: async () => (await Session.open()).turn('', { most: -1 }),
    snapshot: async () => {
        const session = await Session.open({ cells: 10 });
        session.rewind({ ...session.snapshot(), machine: new Uint8Array(3) });
    },
    from: async () => (await Session.open()).neutralPart(-1),
    which: async () => (await Session.open()).argument(-1),
    whichText: async () => (await Session.open()).argument('0'),
    snapshotPages: async () => {
        const session = await Session.open({ cells: 10 });
        session.rewind({ ...session.snapshot(), pages: [{ place: 1, words: new Uint32Array(20) }] });
    },
})) {
    errors[name] = await errorOf(call);
}

provide(new Uint8Array([1, 2, 3]));
const failed = await errorOf(() => run(''));
provide(wasm);
const again = (await run("#(ps,again)'")).text;

const script = new TextEncoder().encode("#(ps,kept)'");
const running = run(script);
script.fill(0);
const kept = (await running).text;
const buffer = (await run(new TextEncoder().encode("#(ps,buffer)'").buffer)).text;
const mark = [...(await run("#(ps,\ufeffa)'")).text].map((c) => c.codePointAt(0));

const session = await Session.open();
const parts = [];
session.turn("##(ps,##(rc))'");
for (const byte of new TextEncoder().encode('\u20ac')) {
    const { text, output } = session.turn(Uint8Array.of(byte));
    parts.push([text, output.length]);
    session.turn("'##(ps,##(rc))'");
}

/** The arguments of the innermost call in the codes of a neutral string, whose mark stands at a place. */
function argumentsIn(neutral, mark) {
    const rows = [[]];
    for (const code of neutral.subarray(mark + 1)) {
        if (code === 258) rows.push([]);
        else rows.at(-1).push(code);
    }
    return rows;
}

/** Whether these are the arguments of the call that a session's next step performs. */
function sameRows(looked, rows) {
    const count = looked.argumentCount();
    return count === rows.length && looked.argument(count).length === 0
        && rows.every((row, which) => String(looked.argument(which)) === String(row)
            && String(looked.argument(which, 2)) === String(row.slice(0, 2)));
}

/** What a session tells of its strings and of its next step that isn't so, step by step. */
async function wrongLooks(script) {
    const looked = await Session.open();
    const wrong = [];
    let dropped = 0;
    for (let given = script; ;) {
        const [neutral, active] = [looked.neutral(), looked.active()];
        const marks = [...neutral.keys()].filter((at) => neutral[at] === 256 || neutral[at] === 257);
        const [takes, ahead, rule] = [looked.takes(), looked.stepsToCall(), looked.rule()];
        dropped += looked.drops();
        const holds = {
            neutralPart: [0, 2, neutral.length + 1].every(
                (from) => String(looked.neutralPart(from, 3)) === String(neutral.subarray(from, from + 3))),
            activePart: String(looked.activePart(1)) === String(active.subarray(1)),
            argument: sameRows(looked, rule === 'end of call' && marks.length
                ? argumentsIn(neutral, marks.at(-1)) : []),
            calls: looked.callCount() === marks.length
                && String(looked.calls(2)) === String(marks.reverse().slice(0, 2)),
            stepsToCall: looked.stepsToCall(1) === Math.min(1, ahead),
        };
        const told = looked.turn(given, { ended: true, most: 1 });
        given = given.slice(told.consumed);
        if (told.fate !== 'going') return { wrong, dropped };
        if (ahead) holds.takes = String(looked.active()) === String(active.subarray(takes));
        holds.rule = (ahead === 0) === (rule === 'idling' || rule === 'end of call');
        for (const [name, isSo] of Object.entries(holds)) if (!isSo) wrong.push([String(told.steps), name]);
    }
}

const looks = await wrongLooks("#(ps,a##(eq,b,(c,(d)),#(ad,1))))'((lost");

/** How many arguments a call of a long text has, and what of its argument 1 is so, where these steps are allowed. */
async function longCall(steps) {
    const text = Uint8Array.from({ length: 9000 }, (_, at) => at % 256).filter((byte) => byte < 0x27 || byte > 0x29);
    const asked = await Session.open({ steps });
    const encoder = new TextEncoder();
    asked.turn(Uint8Array.of(...encoder.encode('#(x,('), ...text, ...encoder.encode("))'")), { most: 13 });
    const held = asked.argument(1);
    return [asked.argumentCount(), String(held) === String(text), held.length];
}

const longCalls = [await longCall(14), await longCall(13)];

/** What each script with mistakes is said to have, by its name. */
const suspicions = {};
for (const name of readdirSync(broken).filter((each) => each.endsWith('.trac'))) {
    const { warnings } = await check(readFileSync(new URL(name, broken)));
    suspicions[name] = warnings.map(({ line, column, text }) => `line ${line}, column ${column}: ${text}`);
}
const endless = await check("#(ds,L,(#(cl,L)))#(cl,L)'", { steps: 500 });
const unknown = Array.from({ length: 20000 }, (_, number) => `#(no${number})`);
const many = await check(`${unknown.join('')}'`, { cells: 400000 });
const needs = [];
const needing = await Session.open();
for (let [given, fate] = ["#(ps,hello)'", 'going']; fate === 'going';) {
    const told = needing.turn(given, { ended: true, most: 1 });
    ({ fate } = told);
    given = given.slice(told.consumed);
    needs.push(needing.takePeak());
}

/** The lines of a script's steps, by its view, with the input in pieces, and the account of the run. */
const traces = {};
for (const [name, views] of Object.entries({
    steps: {},
    calls: { calls: true, width: 8 },
    forms: { forms: true, columns: 30 },
    some: { from: 9, to: 20n, width: 0 },
})) {
    const session = await Session.open({ cells: 500 });
    const trace = session.trace(views);
    const script = "#(ds,A,\u00e9)#(ps,#(cl,A)##(cl,A))#(zz)'";
    let [lines, given, told] = ['', '', {}];
    for (let [at, fate] = [0, 'going']; fate === 'going' || fate === 'wants input';) {
        if (fate === 'wants input') given += script[at++] ?? '';
        told = trace.step(given, { ended: at > script.length });
        ({ fate } = told);
        lines += told.lines;
        given = new TextDecoder().decode(new TextEncoder().encode(given).subarray(told.consumed));
    }
    traces[name] = [lines, told.fate, Number(told.steps), told.peak];
}

/** What a trace tells of a print of so many control characters, and how many of its steps lose their lines. */
async function shownControls(count, cells) {
    const session = await Session.open({ cells });
    const trace = session.trace({ calls: 'yes', width: 0, columns: 8 });
    let [given, printed, lost, lines, told] = [`#(ps,(${'\x01'.repeat(count)}))'`, 0, 0, '', { fate: 'going' }];
    while (told.fate === 'going') {
        try {
            told = trace.step(given, { ended: true });
            lines += told.lines;
        } catch (error) {
            if (!error.report) throw error;
            told = error.report;
            lost++;
        }
        given = given.slice(told.consumed);
        printed += told.output.length;
    }
    return { fate: told.fate, steps: Number(told.steps), printed, lost, lines };
}

const controls = await shownControls(65000, 65536);
const manyControls = await shownControls(2500000, 2600000);
delete manyControls.lines;

const long = 3000000;
const hundred = `#(ds,a,${'x'.repeat(1000)})#(ds,b,(#(ps,${'##(cl,a)'.repeat(100)})))`;
const large = await run(`${hundred}${'#(cl,b)'.repeat(long / 100000)}'`,
    { cells: 400000, steps: 100000000 });
const json = JSON.parse(JSON.stringify(await run("#(ps,hello)'")));
const before = await Session.open({ cells: 10 });
const other = await Session.open({ cells: 10 });
other.turn('abc', { ended: true });
before.rewind(other.snapshot());
console.log(JSON.stringify({
    errors, looks, longCalls, traces, controls, manyControls, suspicions, endless, many: many.warnings.length, needs,
    failed, again, kept, buffer, mark, parts, large: large.output.length, json,
    shown: Object.keys(before),
}));
