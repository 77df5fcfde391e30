// Runs the rows on standard input, a line of JSON each, by trac.mjs, at once and by turns, and prints
// what each came to, and what sessions show.
import { readFileSync } from 'node:fs';
import { pathToFileURL } from 'node:url';

const { run, Session, VERSION } = await import(pathToFileURL(process.argv[2]));

/** A row by turns of at most so many steps, over pieces of so many bytes. */
async function byTurns({ script, cells, steps }, size, most) {
    const session = await Session.open({ cells, steps });
    const bytes = Uint8Array.from(script);
    const output = [];
    for (let [from, to] = [0, 0]; ;) {
        const told = session.turn(bytes.subarray(from, to), { ended: to === bytes.length, most });
        output.push(...told.output);
        from += told.consumed;
        if (told.fate === 'wants input') {
            to = Math.min(to + size, bytes.length);
        } else if (told.fate !== 'going') {
            return { fate: told.fate, steps: Number(told.steps), peak: told.peak, output };
        }
    }
}

/** What a session shows between two turns. */
function seen(session) {
    const forms = session.forms().map(({ name, text, items, pointer }) => (
        { name: [...name], text: [...text], items: [...items], pointer }));
    return {
        forms,
        first: session.forms(1).length,
        count: session.formCount(),
        neutral: [...session.neutral()],
        active: [...session.active()],
        front: [...session.active(2)],
        rule: session.rule(),
        parts: session.parts(),
        meta: session.meta,
        awaits: session.awaits(),
    };
}

/** Three scripts whose forms are kept. */
async function keptForms() {
    const session = await Session.open({ cells: 1000 });
    const told = [];
    const scripts = ["#(ds,a,xyz)#(ss,a,y)'", "#(ps,#(cl,a,-))#(cc,a)#(ds,b,)#(cm,;)'", "#(pf,a);"];
    for (const script of scripts) {
        const { text, fate, consumed } = session.turn(script, { ended: true });
        told.push([text, fate, consumed]);
        session.again();
    }
    return { told, seen: seen(session) };
}

/** A session that waits for input, gets some, and is made again what it was. */
async function restored() {
    const session = await Session.open({ cells: 1000 });
    const fresh = session.snapshot();
    const told = [session.turn("#(ps,a##(rs))'").fate];
    const saved = session.snapshot();
    const shown = seen(session);
    for (const text of ["x'", "y'"]) {
        told.push(session.turn(text, { ended: true }).text);
        session.rewind(saved);
    }
    session.rewind(fresh);
    told.push(session.turn("#(ps,#(rc))'z", { ended: true }).text);
    const other = await Session.open({ cells: 999 });
    try {
        other.rewind(saved);
    } catch (error) {
        told.push(error.name);
    }
    const long = 'b'.repeat(10000);
    told.push((await Session.open()).turn(`#(ps,${long})'`, { ended: true }).text === long);
    return { told, seen: shown };
}

const rows = readFileSync(0, 'utf8').split('\n').filter((line) => line).map((line) => JSON.parse(line));
const told = [];
for (const { script, cells, steps } of rows) {
    const done = await run(Uint8Array.from(script), { cells, steps });
    told.push({ ...done, steps: Number(done.steps), output: [...done.output] });
}
const turned = [];
for (const [at, row] of rows.entries()) {
    turned.push([at, await byTurns(row, 64, 1000)]);
    if (told[at].steps < 1000) turned.push([at, await byTurns(row, 3, 1)]);
}
const refused = [];
for (const limits of [{ cells: 0 }, { cells: 16777217 }, { steps: 0 }, { steps: 2n ** 64n }]) {
    await run('', limits).catch((error) => refused.push(error.name));
    await Session.open(limits).catch((error) => refused.push(error.name));
}
const text = (await run("#(ps,\u00e9t\u00e9)'")).text;
console.log(JSON.stringify({
    told, turned, refused, text, version: VERSION, kept: await keptForms(), restored: await restored(),
}));
