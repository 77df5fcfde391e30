// Functions of the host and forms from outside, through trac.mjs. Ends with an error where something else is found.
import assert from 'node:assert/strict';
import { pathToFileURL } from 'node:url';

const { run, Session } = await import(pathToFileURL(process.argv[2]));
const words = (bytes) => new TextDecoder().decode(bytes);

// a function gives the value of its call, whatever the size of a turn
for (const most of [1, 7, 2n ** 64n - 1n]) {
    const session = await Session.open({ cells: 1000, steps: 10000 });
    const asked = [];
    session.functions.set('temperature', (...args) => {
        asked.push(args.map(words));
        return '21';
    });
    let script = "#(ps,It is #(temperature,in,#(ad,1,1)).)'";
    let printed = '';
    for (let turns = 0; turns < 1000; turns += 1) {
        const told = session.turn(script, { most });
        script = script.slice(told.consumed);
        printed += told.text;
        if (told.fate === 'wants input') break;
        assert.equal(told.fate, 'going');
    }
    assert.equal(printed, 'It is 21.');
    assert.deepEqual(asked, [['in', '2']]);
}

// null values are what the language gives
const script = "#(ps,a#(zz,#(yy,1),(2))b)#(ds,x,#(xx))#(ps,##(cl,x)##(nn))'";
const plain = await run(script, { cells: 1000 });
const session = await Session.open({ cells: 1000 });
for (const name of ['zz', 'yy', 'xx', 'nn']) session.functions.set(name, () => null);
const told = session.turn(script, { ended: true });
assert.deepEqual([told.text, told.fate, told.steps, told.peak], [plain.text, plain.fate, plain.steps, plain.peak]);
session.functions.clear();

// without a function of the name a turn stops where it is told to
session.again();
session.stopAtUnknown();
assert.equal(session.turn("#(ps,##(ask,1))'").fate, 'wants answer');
assert.equal(words(session.argument(0)), 'ask');
assert.throws(() => session.answer('x', 'aloud'), TypeError);
assert.equal(session.answer('#(ad,1,2)', 'scanned').fate, 'going');
assert.throws(() => session.answer('x'), RangeError);
assert.equal(session.turn().text, '3');
session.stopAtUnknown(false);
assert.equal(session.turn("#(ps,[#(ask)])'").text, '[]');

// an error ends the turn, and nothing is lost
session.functions.set('f', () => {
    throw new EvalError('no sensor');
});
const whole = "#(ps,before)#(ps,<#(f)>)'";
assert.throws(() => session.turn(whole), { name: 'EvalError', message: 'no sensor' });
assert.equal(session.interrupted.text, 'before');
assert.equal(session.interrupted.fate, 'wants answer');
session.functions.set('f', () => 'mended');
assert.equal(session.turn(whole.slice(session.interrupted.consumed)).text, '<mended>');
session.functions.set('f', () => 7);
assert.throws(() => session.turn("#(f)'"), TypeError);
session.functions.set('f', () => {
    for (const use of [() => session.turn(), () => session.again(), () => session.deleteAll(), () => session.answer(''),
        () => session.define('a', 'b'), () => session.restore(session.save()),
        () => session.rewind(session.snapshot()), () => {
            session.meta = 33;
        }]) {
        assert.throws(use, /may not use the session/);
    }
    return 'refused';
});
session.again();
assert.equal(session.turn("#(ps,#(f))'").text, 'refused');

// forms from outside
const small = await Session.open({ cells: 40, steps: 1000 });
small.define('f', Uint32Array.of(97, 256, 98), 1);
small.define(new Uint8Array([116]), 'xyz');
assert.deepEqual(small.forms().map((form) => [words(form.name), [...form.items], form.pointer]),
    [['f', [97, 256, 98], 1], ['t', [120, 121, 122], 0]]);
for (const wrong of [() => small.define('w', Uint32Array.of(2 ** 24 + 256)), () => small.define('w', 'ab', 3),
    () => small.define('w', 'a'.repeat(40))]) {
    assert.throws(wrong, RangeError);
}
assert.equal(small.formCount(), 2);
assert.equal(small.delete('f'), true);
assert.equal(small.delete('f'), false);
small.deleteAll();
assert.equal(small.formCount(), 0);
small.meta = 33;
assert.equal(small.meta, 33);
for (const wrong of [-1, 256, 1.5, '!']) {
    assert.throws(() => {
        small.meta = wrong;
    }, typeof wrong === 'number' && Number.isInteger(wrong) ? RangeError : TypeError);
}
assert.deepEqual([small.meta, small.turn('#(ps,hello)!').text], [33, 'hello']);

// an image of the forms
const worked = new Uint8Array([84, 82, 65, 67, 1, 59, 1, 0, 0, 0, 1, 0, 0, 0, 3, 0, 0, 0, 2, 0, 0, 0, 2, 0, 0, 0,
    70, 97, 98, 1, 0, 0, 0, 1, 0, 0, 0, 123, 2, 40, 60]);
const kept = await Session.open({ cells: 40, steps: 1000 });
kept.define('F', Uint32Array.of(97, 256, 98), 2);
kept.meta = 59;
assert.deepEqual(kept.save(), worked);
const other = await Session.open({ cells: 40, steps: 1000 });
other.define('own', 'text');
other.restore(worked.slice().buffer);
assert.deepEqual([other.forms(), other.meta, other.save()], [kept.forms(), 59, worked]);
assert.equal(other.turn('#(ps,[#(cl,F,-)]);').text, '[b]');
for (const wrong of [worked.slice(1), worked.slice(0, -1), worked.map((byte, i) => byte ^ (i === 30)),
    new Uint8Array(0)]) {
    assert.throws(() => other.restore(wrong), RangeError);
    assert.deepEqual(other.forms().map((form) => words(form.name)), ['F']);
}
assert.throws(() => other.restore('TRAC'), TypeError);
const tiny = await Session.open({ cells: 6, steps: 1000 });
assert.throws(() => tiny.restore(worked), RangeError);
assert.deepEqual([tiny.formCount(), tiny.meta], [0, 39]);
const snapshot = other.snapshot();
other.restore(tiny.save());
assert.equal(other.formCount(), 0);
other.rewind(snapshot);
assert.equal(other.formCount(), 1);

// where the value of each call comes from: its name, the kind, an argument, and what else the pointer passes over
const asking = await Session.open({ cells: 1000 });
const sources = [];
const calls = "#(ds,F,abcd)#(ss,F,b)#(cs,F,Z)#(in,F,,Z)#(in,F,cd,Z)#(cs,F,Z)#(cn,F,0,Z)#(cn,F,-1,Z)#(cl,F,X)#(cl,G)"
    + "#(eq,a,a,b,b)#(eq,a,b)#(gr,1,1,b,b)#(gr,2,1)#(ad,1,2,3)#(dv,1,0)#(bu,1,2)#(ln)#(rc)#(no,a)#(ps)'x";
for (let [given, fate] = [calls, 'going']; fate === 'going';) {
    if (asking.argumentCount()) {
        const { kind, argument, sought } = asking.valueSource();
        sources.push([words(asking.argument(0)), kind, argument, sought].join(' '));
    }
    const told = asking.turn(given, { ended: true, most: 1 });
    ({ fate } = told);
    given = given.slice(told.consumed);
}
assert.deepEqual(sources, [
    'rs input 0 0', 'ds nothing 0 0', 'ss nothing 0 0', 'cs part 2 0', 'in nothing 0 0', 'in part 3 2', 'cs part 2 0',
    'cn nothing 0 0', 'cn part 3 0', 'cl body 0 0', 'cl nothing 0 0', 'eq argument 3 0', 'eq argument 4 0',
    'gr argument 4 0', 'gr argument 3 0', 'ad made 0 0', 'dv argument 3 0', 'bu made 0 0', 'ln made 0 0',
    'rc input 0 0', 'no nothing 0 0', 'ps nothing 0 0', 'ps nothing 0 0', 'rs input 0 0']);
assert.equal(asking.valueSource().kind, 'nothing');
console.log('ok');
