"""The package for Python: each case of conformance/, random scripts compared with the program, arguments that can't be
used, threads, signals, and refused memory."""
import copy
import os
import pathlib
import random
import re
import sys
import threading

import pytest

import python_package
from trac import TOP, report, trace

sys.path.append(os.path.join(TOP, 'conformance'))
from run import cases

HELLO = b"#(ps,hello)'"
LOOP = b"#(ds,L,(#(cl,L)))#(cl,L)'"
GREET = b"#(ds,greet,(Hello, X!))#(ss,greet,X)'"
STATUS = {'halted': 0, 'input ended': 0, 'workspace': 1, 'steps': 3}
CASES = [case for path in sorted(pathlib.Path(TOP, 'conformance').glob('*.cases')) for case in cases(path)]
PROGRAM = re.compile(r'^```python\n(.*?)^```\n\n```output\n(.*?)^```', re.MULTILINE | re.DOTALL)
# What random scripts are made of.
WORDS = [*'()#,\'\nAB1 \u00e9', '#(', '##(', '-2', '', '#(ps,', '##(cl,A,', '#(ds,A,', '#(ss,A,B', '#(cc,A', '#(cs,A,',
         '#(cn,A,2', '#(in,A,B', '#(pf,A)', '#(ln,-)', '#(rs)', '##(rc)', '#(ad,7,', '#(gr,', '#(cm,!)', '#(dd,A)',
         '#(da)', '#(hl)']


def account(report):
    """The steps, the peak and the status of a report or a session."""
    return report.steps, report.peak, STATUS[report.fate.value]


def in_pieces(module, script, cells, steps, draw):
    """The output and the account of a session that is fed in pieces and makes steps by turns, as they are drawn."""
    session, output = module.Session(cells, steps), b''
    while script and not session.fate.is_end:
        piece, script = (script[:(size := draw.randint(1, 9))], script[size:])
        output += session.feed(piece, most=draw.choice((None, 0, 1, 7, 300)))
        if draw.random() < 0.1:
            session = session.copy()
    output += session.end(most=draw.choice((0, 5)))
    for part in session.outputs():
        output += part
    return output, *account(session)


# ---- Runs.


def test_each_case(trac_t64):
    draw, tried = random.Random(49), 0
    for case in (case for case in CASES if 'fails' not in case):
        cells, steps = int(case['cells']), int(case['allowance'])
        made = trac_t64.run(case['input'], cells, steps)
        wanted = {key: case[key] for key in ('steps', 'peak') if key in case}
        got = {'steps': str(made.steps), 'peak': str(made.peak)}
        assert (made.output, STATUS[made.fate.value]) == (case['output'], int(case['status'])), case['name']
        assert {key: got[key] for key in wanted} == wanted, case['name']
        assert case.get('halts') != 'yes' or made.fate is trac_t64.Fate.HALTED, case['name']
        pieces = in_pieces(trac_t64, case['input'], cells, steps, draw)
        assert pieces == (made.output, *account(made)), case['name']
        tried += 1
    assert tried > 600


def test_random_scripts_beside_the_program(trac_t64):
    draw, ends = random.Random(1966), set()
    for _ in range(400):
        script = ''.join(draw.choice(WORDS) for _ in range(draw.randint(1, 40))).encode() + draw.choice((b'', b"'"))
        cells, steps = draw.choice((11, 30, 60, 300, 65536)), draw.choice((9, 100, 1000, 20000))
        wanted = report(script, '--cells', str(cells), '--steps', str(steps))
        made = trac_t64.run(script, cells, steps)
        assert (made.output, *account(made)) == wanted, (script, cells, steps)
        assert in_pieces(trac_t64, script, cells, steps, draw) == wanted, (script, cells, steps)
        ends.add(made.fate)
    assert len(ends) == 4


def test_a_report(trac_t64):
    made = trac_t64.run("#(ps,h\u00e9)#(ps,##(rc)){}'rest".format('#(hl)').encode() + b'\xff')
    assert (made.text, made.output, made.fate) == ('h\u00e9r', b'h\xc3\xa9r', trac_t64.Fate.HALTED)
    assert made.consumed == len("#(ps,h..)#(ps,##(rc))#(hl)'r")
    assert trac_t64.run(b'\xff').text == '\ufffd'
    for script in (HELLO, bytearray(HELLO), memoryview(HELLO), memoryview(bytes(2 * len(HELLO)))[::2], HELLO.decode()):
        trac_t64.run(script)
    assert trac_t64.run('#(ps,\u20ac)').text == '\u20ac'


def test_an_output_that_is_larger_than_the_workspace(trac_t64):
    script = b"#(ds,A,%s)#(ds,L,(#(ps,##(cl,A))#(cl,L)))#(cl,L)'" % (b'x' * 5000)
    made = trac_t64.run(script, 65536, 100000)
    assert made.output == b'x' * len(made.output) and len(made.output) > 10000000


# ---- Sessions.


def test_what_is_suspicious(trac_t64):
    scripts = sorted(pathlib.Path(TOP, 'examples', 'broken').glob('*.trac'))
    assert len(scripts) > 15
    for script in scripts:
        told = script.with_suffix('.warnings').read_text('utf-8').splitlines()
        made = trac_t64.check(script.read_bytes())
        assert [f'line {line}, column {column}: {text}' for line, column, text in made.suspicions] == [
            line for line in told if line.startswith('line ')], script
        assert account(made) == account(trac_t64.run(script.read_bytes())), script


VIEWS = [({}, []), ({'calls': True, 'width': 8}, ['--calls', '--width', '8']),
         ({'forms': True, 'columns': 30}, ['--forms', '--columns', '30']),
         ({'first': 9, 'to': 20, 'width': 0}, ['--from', '9', '--to', '20', '--width', '0']),
         ({'calls': True, 'forms': True}, ['--calls', '--forms'])]


def test_a_trace_has_the_lines_of_the_tracer(trac_t64):
    draw = random.Random(64)
    for views, words in VIEWS * 4:
        script = ''.join(draw.choice(WORDS) for _ in range(draw.randint(0, 60))).encode()
        with trac_t64.Session(200, 500) as session:
            session.feed(script, most=0)
            session.end(most=0)
            lines = list(session.trace(**views))
            assert lines == trace(script, '--cells', '200', '--steps', '500', *words)[0], (script, words)
            assert list(session.trace()) == []
            whole = trac_t64.run(script, 200, 500)
            assert (session.feed(most=0), account(session)) == (whole.output, account(whole))


def test_the_peak_behind_a_trace(trac_t64):
    session = trac_t64.Session()
    session.feed("#(ps,hello)'", most=0)
    shown = session.trace()
    for _ in range(20):
        shown.step()
    assert session.peak == 19
    session.feed("#(ps,x)'", most=3)
    assert 0 < session.peak < 19
    shown.step()
    assert (session.peak, session.take_peak()) == (19, 0)


def test_a_trace_goes_on_behind_more_input(trac_t64):
    with trac_t64.Session() as session:
        shown = session.trace(calls=True)
        assert list(shown) == ['  step  call']
        session.feed("#(ps,#(rs))'", most=0)
        assert [line[6:] for line in shown] == ['    #(rs) = #(ps,#(rs))']
        session.feed("a'", most=0)
        assert [line[6:] for line in shown] == ['      #(rs) = a', '    #(ps<,>a) prints a', '  #(ps<,>)']
        assert session.fate is trac_t64.Fate.WANTS_INPUT and session.feed(most=0) == b'a'
        session.again()
        assert session.trace(first=2, to=2).step() == [
            '  step  rule           size  need  neutral string|active string']
    for refused, words in (({'first': 0}, 'first must be from 1'), ({'to': 2**64}, 'to must be from 1'),
                           ({'width': -1}, 'width must be from 0'), ({'columns': 16777217}, 'columns must be from 0')):
        with pytest.raises(ValueError, match=words):
            trac_t64.Session().trace(**refused)


def test_many_suspicions(trac_t64):
    script = ''.join(f'#(no{number})' for number in range(20000)) + "'"
    made = trac_t64.check(script, cells=400000)
    assert [each.text for each in made.suspicions] == [
        f'no function has the name no{number}' for number in range(20000)]
    made = trac_t64.check(LOOP, steps=5000)
    assert made == trac_t64.Check([
        trac_t64.Suspicion(1, 9, 'in the value of L, column 1: this call was open when the run ended'),
        trac_t64.Suspicion(1, 9, 'in the value of L, column 5: the run ended here; the form L was called 830 times'),
    ], trac_t64.Fate.STEPS, 5000, 36)
    assert not made and made.fault == 'allowance used up: 5000 steps, peak 36 cells'
    assert not trac_t64.check("#(pss,a)'") and trac_t64.check("#(ps,a)'").fault == ''
    for refused, words in (({'cells': 0}, 'cells must be from 1'), ({'steps': 0}, 'steps must be from 1')):
        with pytest.raises(ValueError, match=words):
            trac_t64.check('', **refused)
    with pytest.raises(TypeError, match='script must be str or bytes'):
        trac_t64.check(12)


def test_a_session_keeps_its_forms(trac_t64):
    with trac_t64.Session(200, 1000) as session:
        assert session.feed(GREET) == b''
        assert (session.fate, session.awaits, session.rule) == (trac_t64.Fate.WANTS_INPUT, 'text', 'end of call')
        session.again()
        assert (session.steps, session.peak, session.awaits) == (0, 0, 'nothing')
        assert (session.neutral, session.active) == ((), b'')
        assert session.feed("##(cl,greet,Ad") + session.feed("a)'rest") == b'Hello, Ada!'
        assert (session.unread, session.meta, session.cells) == (b'rest', ord("'"), 200)
        [form] = session.forms()
        assert form == (b'greet', b'<^>Hello, <1>!', (*b'Hello, ', trac_t64.FIRST_GAP, ord('!')), 0)
        assert session.parts == (17, 7, 174, 2) and sum(session.parts) == session.cells
        assert session.end() == b'rest' and session.fate is trac_t64.Fate.INPUT_ENDED


def test_the_steps_of_the_manual(trac_t64):
    with open(os.path.join(TOP, 'docs', 'LANGUAGE.md'), encoding='utf-8') as page:
        block = re.search(r"```trace\n  step .*?\n(.*?)```", page.read(), re.DOTALL)[1]
    rows = re.findall(r'^ +(\d+)  (.{13}) +(\d+) +(\d+)  (.*)$', block, re.MULTILINE)
    session = trac_t64.Session()
    session.feed(HELLO, most=0)
    session.end(most=0)
    made = []
    while True:
        size = session.cells - session.parts.free
        if (step := session.step()) is None:
            break
        strings = f'{trac_t64.shown(session.neutral)}|{trac_t64.shown(session.active)}'
        made.append((str(step.number), f'{step.rule:13}', str(size), str(session.take_peak()), strings))
        assert step.output == (b'hello' if step.number == 19 else b'')
    # the contents of the workspace after the last step are not promised
    assert made[:-1] == rows[:-1] and len(made) == len(rows) == 29
    assert (session.step(), list(session)) == (None, [])


def arguments_in(codes):
    """The arguments in the codes of a call."""
    ends = [place for place, code in enumerate(codes) if code == 258]
    return tuple(bytes(codes[begin + 1:end]) for begin, end in zip([-1, *ends], [*ends, len(codes)]))


def test_what_comes_next(trac_t64):
    session = trac_t64.Session()
    session.feed("#(ps,a##(eq,b,(c,(d)),#(ad,1", most=0)
    session.feed("))))'((lost", most=0)
    session.end(most=0)
    ends, dropped = ('idling', 'end of call'), []
    for _ in range(200):
        codes, text = session.neutral, session.active
        marks = [place for place, code in enumerate(codes) if code > 255 and code != trac_t64.COMMA_MARK]
        assert session.calls == tuple(reversed(marks))
        for start in (0, 1, len(codes), len(text), len(codes) + 1):
            assert session.neutral_part(start, 4) == codes[start:start + 4]
            assert session.active_part(start, 3) == text[start:start + 3]
        assert (session.neutral_part(1), session.active_part(2)) == (codes[1:], text[2:])
        takes, ahead, rule = session.takes, session.steps_to_call(), session.rule
        performs = marks and rule == 'end of call' and not session.fate.is_end
        assert session.arguments == (arguments_in(codes[marks[-1] + 1:]) if performs else ())
        dropped.append(session.drops)
        assert session.steps_to_call(2) == min(2, ahead) and (ahead == 0) == (rule in ends)
        if session.step() is None:
            break
        if rule not in ends:
            assert session.active == text[takes:] and session.steps_to_call() == ahead - 1
    assert sorted(dropped)[-2:] == [0, 7] and session.fate is trac_t64.Fate.INPUT_ENDED
    for call in (session.neutral_part, session.active_part):
        with pytest.raises(ValueError, match='start must be from 0'):
            call(-1)
    with pytest.raises(ValueError, match='most must be from 0'):
        session.steps_to_call(-1)


def test_the_arguments_of_a_call(trac_t64):
    text = bytes(set(range(256)) - set(b"()'")) * 40
    for allowance, wanted in ((14, (b'x', text)), (13, ())):
        session = trac_t64.Session(steps=allowance)
        session.feed(b'#(x,(' + text + b"))'", most=13)
        assert session.arguments == wanted
    session.again(13)
    session.feed(b"#(x,,)'", most=13)
    assert session.arguments == () and session.fate is trac_t64.Fate.GOING
    session.again(99)
    session.feed(b"#(x,,)'", most=13)
    assert session.arguments == (b'x', b'', b'')
    session.feed()
    assert (session.arguments, session.fate) == ((b'rs',), trac_t64.Fate.WANTS_INPUT)
    session.end()
    assert session.arguments == ()


def test_iterating_stops_where_input_is_wanted(trac_t64):
    session = trac_t64.Session()
    assert [step.rule for step in session] == ['idling', 'active call', 'character', 'character', 'argument',
                                               'active call', 'character', 'character']
    session.feed(HELLO, most=0)
    assert b''.join(step.output for step in session) == b'hello'
    assert session.fate is trac_t64.Fate.WANTS_INPUT


def test_outputs_come_before_the_next_step(trac_t64):
    session = trac_t64.Session()
    session.feed("#(ps,a)#(ds,A,)#(ps,)#(ps,b)'", most=0)
    seen = [(output, session.steps, len(session.forms())) for output in session.outputs()]
    assert [output for output, _, _ in seen] == [b'a', b'b'] and [count for *_, count in seen] == [0, 1]


def test_input_behind_its_end(trac_t64):
    session = trac_t64.Session()
    session.end(most=3)
    session.feed()
    with pytest.raises(ValueError, match='^data '):
        session.feed(b'x')
    session.again()
    assert session.feed(HELLO) == b'hello'


def test_a_run_that_is_over_stays_over(trac_t64):
    session = trac_t64.Session(1000, 100)
    session.feed(b"#(ps,a)#(hl)'#(ps,b)'")
    before = session.steps
    assert (session.feed(b"#(ps,c)'"), session.steps, session.unread) == (b'', before, b"#(ps,b)'#(ps,c)'")
    rest = session.unread
    session.again(200)
    assert session.feed(rest) == b'bc'
    session.again(5)
    assert (session.feed(), session.fate, session.steps) == (b'', trac_t64.Fate.STEPS, 5)
    session.again()
    session.feed(LOOP)
    assert session.steps == 100


def test_copies_go_their_own_ways(trac_t64):
    first = trac_t64.Session(300)
    first.feed(GREET + b"#(ps,##(cl,greet,##(rs)))'A")
    second, third, fourth = first.copy(), copy.copy(first), copy.deepcopy(first)
    assert second.feed(b"b'") == b'Hello, Ab!'
    assert first.feed(b"c#(da)'") == b'Hello, Ac#(da)!'
    first.close()
    assert third.feed(b"d'#(ds,more,x)'") == b'Hello, Ad!'
    fifth = third.copy()
    third.close()
    assert [form.name for form in fifth.forms()] == [b'greet', b'more']
    assert fourth.unread == b'A' and len(fourth.forms()) == 1
    assert fourth.feed(b"e'") == b'Hello, Ae!' and fifth.feed(b"#(ln,/)'") == b'/greet/more'
    with pytest.raises(ValueError, match='closed'):
        first.copy()


def test_copies_in_any_order(trac_t64):
    draw = random.Random(5)
    sessions = [(trac_t64.Session(2000), [])]
    for number in range(400):
        session, names = draw.choice(sessions)
        session.again()
        session.feed(f"#(ds,F{number},x)'")
        names.append(f'F{number}'.encode())
        if len(sessions) < 6:
            sessions.append((session.copy(), list(names)))
        elif draw.random() < 0.3:
            sessions.pop(draw.randrange(6))[0].close()
        for session, names in sessions:
            if len(names) > 60:
                session.again()
                session.feed("#(da)'")
                names.clear()
            assert [form.name for form in session.forms()] == names


def test_shown(trac_t64):
    assert trac_t64.shown([256, *b'a\n\\\t', 258, 257, *'\u00e9\u00a0'.encode(), 0xC3, 0]) == \
        '<#>a\\n\\\\\\t<,><##>\u00e9\\xC2\\xA0\\xC3\\x00'
    for code in (259, -1):
        with pytest.raises(ValueError):
            trac_t64.shown([code])


# ---- What can't be used.


def test_arguments_that_are_refused(trac_t64):
    session = trac_t64.Session()
    huge = 10**30
    rows = [
        (ValueError, 'cells', lambda: trac_t64.run(HELLO, 0)),
        (ValueError, 'cells', lambda: trac_t64.run(HELLO, 16777217)),
        (ValueError, 'cells', lambda: trac_t64.Session(-1)), (ValueError, 'cells', lambda: trac_t64.Session(huge)),
        (TypeError, 'cells', lambda: trac_t64.Session('9')), (TypeError, 'cells', lambda: trac_t64.Session(1.0)),
        (TypeError, 'cells', lambda: trac_t64.Session(None)), (ValueError, 'steps', lambda: trac_t64.Session(9, 0)),
        (ValueError, 'steps', lambda: trac_t64.run(HELLO, 9, 2**64)),
        (TypeError, 'steps', lambda: trac_t64.run(HELLO, 9, '1')),
        (TypeError, 'script', lambda: trac_t64.run(None)), (TypeError, 'script', lambda: trac_t64.run(7)),
        (TypeError, 'script', lambda: trac_t64.run([35])), (ValueError, 'script', lambda: trac_t64.run('\ud800')),
        (TypeError, 'data', lambda: session.feed(7)), (ValueError, 'data', lambda: session.feed('a\udcff')),
        (ValueError, 'most', lambda: session.feed(HELLO, -1)), (ValueError, 'most', lambda: session.end(2**64)),
        (TypeError, 'most', lambda: session.end(0.5)), (ValueError, 'steps', lambda: session.again(0)),
        (TypeError, 'steps', lambda: session.again(b'1')),
    ]
    for kind, name, call in rows:
        with pytest.raises(kind, match=rf'^{name} '):
            call()
    # nothing of the refused input was taken
    assert (session.unread, session.steps, session.fate) == (b'', 0, trac_t64.Fate.GOING)
    assert session.feed(HELLO) == b'hello'


def test_a_session_that_is_closed(trac_t64):
    session = trac_t64.Session()
    session.close()
    session.close()
    names = [name for name in dir(trac_t64.Session) if not name.startswith('_')
             and name not in ('cells', 'close', 'functions')]
    given = {'define': ('name', 'body'), 'delete': ('name',), 'load': (b'image',)}
    assert len(names) > 15
    for name in names:
        with pytest.raises(ValueError, match='closed'):
            found = getattr(session, name)
            list(found(*given.get(name, ())) or ()) if callable(found) else found
    with pytest.raises(ValueError, match='closed'), session:
        session.feed(HELLO)


def test_the_machine_below_refuses_too(trac_t64):
    from trac_t64._engine import Machine as machine
    for words, kind in (((0, 1), ValueError), ((16777217, 1), ValueError), ((1, -1), OverflowError),
                        ((1, 'x'), TypeError), ((), TypeError), ((2**70, 1), OverflowError)):
        with pytest.raises(kind):
            machine(*words)
    made = machine(cells=20, steps=30)
    for call in (lambda: made.feed('x'), lambda: made.feed(bytearray(b'x')), lambda: made.go(-1, False),
                 lambda: made.go(1), lambda: made.again(None), lambda: made.copy(1)):
        with pytest.raises((TypeError, OverflowError)):
            call()
    with pytest.raises(TypeError):
        type('Other', (machine,), {})


def test_no_machine_is_pickled(trac_t64):
    import pickle
    with pytest.raises(TypeError):
        pickle.dumps(trac_t64.Session()._machine)


# ---- Threads, signals and memory.


def test_threads_with_a_session_each(trac_t64):
    made, barrier = {}, threading.Barrier(4)

    def work(number):
        barrier.wait()
        with trac_t64.Session() as session:
            session.feed(f"#(ds,A,{number})'")
            made[number] = b''.join(session.feed("#(ps,##(cl,A))'") for _ in range(200)), \
                trac_t64.run(LOOP, 65536, 500000 + number).steps

    threads = [threading.Thread(target=work, args=(number,)) for number in range(4)]
    for thread in threads:
        thread.start()
    for thread in threads:
        thread.join(60)
    assert made == {number: (str(number).encode() * 200, 500000 + number) for number in range(4)}


def test_one_session_in_two_threads(trac_t64):
    session = trac_t64.Session(65536, 2**64 - 1)
    twin = session.copy()
    session.feed(LOOP, most=0)
    thread = threading.Thread(target=session.feed, args=(b'', 30000000))
    thread.start()
    refused = set()
    while thread.is_alive() and len(refused) < 4:
        for name, call in (('steps', lambda: session.steps), ('feed', session.feed), ('close', session.close),
                           ('copy', session.copy)):
            try:
                call()
            except RuntimeError as error:
                assert 'middle of a turn' in str(error)
                refused.add(name)
            else:
                # the turn hasn't begun yet
                break
    assert refused == {'steps', 'feed', 'close', 'copy'} and twin.feed(HELLO) == b'hello' and thread.is_alive()
    thread.join(60)
    assert session.steps == 30000000 and twin.steps == 28


INTERRUPTED = """
import os, signal, sys, threading, time
from trac_t64 import Session, run
# what runs in the background may have it ignored
signal.signal(signal.SIGINT, signal.default_int_handler)
def soon(): threading.Timer(0.2, os.kill, (os.getpid(), signal.SIGINT)).start()
soon()
begin = time.monotonic()
try: run(b"#(ds,L,(#(cl,L)))#(cl,L)'", 65536, 2**63)
except KeyboardInterrupt: print('stopped', time.monotonic() - begin < 20)
session = Session(65536, 2**63)
soon()
try: session.feed(b"#(ds,N,0)#(ds,L,(#(ps,#(cl,N);)#(ds,N,#(ad,#(cl,N),1))#(cl,L)))#(cl,L)'")
except KeyboardInterrupt: pass
steps = session.steps
output = session.feed(b'', most=100000)
numbers = [int(each) for each in output.split(b';')[:-1]]
print(numbers == list(range(len(numbers))), len(numbers) > 1000, session.steps == steps + 100000)
"""


def test_an_interrupt_stops_between_two_steps(python_site):
    assert python_package.python(python_site, INTERRUPTED).split() == ['stopped', 'True', 'True', 'True', 'True']


IN_A_HANDLER = """
import signal
from trac_t64 import Session
session, told = Session(65536, 2**63), []
def handler(*_):
    try: session.steps
    except RuntimeError as error: told.append(str(error))
signal.signal(signal.SIGALRM, handler)
signal.setitimer(signal.ITIMER_REAL, 0.1)
session.feed(b"#(ds,L,(#(cl,L)))#(cl,L)'", most=30000000)
print(told, session.steps)
"""


def test_a_handler_of_a_signal_can_not_use_the_session(python_site):
    assert python_package.python(python_site, IN_A_HANDLER).strip() == \
        "['the session is in the middle of a turn or another call'] 30000000"


FINALISED = """
import gc
from trac_t64 import Session
class Trap:
    def __init__(self, use): self.me, self.use = self, use
    def __del__(self):
        try: self.use()
        except RuntimeError as error: told.add(str(error))
for use in ('close', 'feed', 'forms', 'again', 'copy', 'end'):
    session, told = Session(200000), set()
    for number in range(3000): session.feed(f"#(ds,f{number},x)'")
    gc.collect()
    for _ in range(100): Trap(getattr(session, use))
    print(len(session.forms()), *told, sep=': ')
"""


def test_a_finaliser_that_the_collector_runs_can_not_use_the_session(python_site):
    assert python_package.python(python_site, FINALISED).splitlines() == [
        '3000: the session is in the middle of a turn or another call'] * 6


FINALISED_AMONG_ARGUMENTS = """
import gc
from trac_t64 import Session
class Trap:
    def __init__(self): self.me = self
    def __del__(self):
        try: session.feed(b"x'")
        except RuntimeError as error: told.add(str(error))
session, told = Session(), set()
session.feed(b"#(x,y,z)'", most=15)
gc.collect()
gc.disable()
trap = Trap()
del trap
gc.set_threshold(1)
gc.enable()
held = session.arguments
gc.disable()
print(held, *told)
"""


def test_a_finaliser_can_not_change_the_arguments_that_are_asked_for(python_site):
    assert python_package.python(python_site, FINALISED_AMONG_ARGUMENTS).strip() == \
        "(b'x', b'y', b'z') the session is in the middle of a turn or another call"


FINALISED_AMONG_LINES = """
import gc
from trac_t64 import Session
class Trap:
    def __init__(self): self.me = self
    def __del__(self):
        try: session.close()
        except RuntimeError as error: told.add(str(error))
session, told = Session(), set()
session.feed("#(ps,hello)'", most=0)
trace = session.trace()
trace.step()
# so many that none is left which could be made again without the collector
held = [(number, number) for number in range(3000)]
gc.collect()
gc.disable()
trap = Trap()
del trap
show, words = session._machine.show, trace._words
gc.set_threshold(1)
gc.enable()
lines = show(words)[1]
gc.disable()
print(lines.decode()[:21], *told)
"""


def test_a_finaliser_can_not_close_the_session_whose_step_is_shown(python_site):
    assert python_package.python(python_site, FINALISED_AMONG_LINES).strip() == \
        '2  active call   the session is in the middle of a turn or another call'


INTERRUPTED_AMONG_ARGUMENTS = """
import signal
from trac_t64 import Session
session = Session(400000, 10**9)
session.feed(b"#(x" + b',' * 60000 + b")'", most=60011)
signal.signal(signal.SIGALRM, signal.default_int_handler)
signal.setitimer(signal.ITIMER_REAL, 0.2)
try: session.arguments
except KeyboardInterrupt: print('interrupted', session.rule, session.steps)
"""


def test_an_interrupt_ends_the_asking_for_very_many_arguments(python_site):
    assert python_package.python(python_site, INTERRUPTED_AMONG_ARGUMENTS).strip() == 'interrupted end of call 60011'


WAITED = """
import os, signal, threading, time
from trac_t64 import Session, check
signal.signal(signal.SIGINT, signal.default_int_handler)
# the time of the processor: other programs may run too
def waits(call, *arguments):
    threading.Timer(0.5, lambda: (begun.append(time.process_time()), os.kill(os.getpid(), signal.SIGINT))).start()
    begun = []
    try: call(*arguments)
    except KeyboardInterrupt: return time.process_time() - begun[0] < 0.8
    return False
print(waits(check, b"#(ds,L,(#(cl,L)))#(cl,L)'", 65536, 10**9))
session = Session(4000000, 10**9)
session.feed(b"#(ds,A,%s)#(ds,L,(#(dd,##(cl,A))#(cl,L)))'" % (b'x' * 1200000))
print(waits(session.feed, b"#(cl,L)'"))
"""


def test_an_interrupt_comes_in_time_whatever_the_steps_cost(python_site):
    assert python_package.python(python_site, WAITED).split() == ['True', 'True']


def test_a_check_in_another_thread(trac_t64):
    made = []
    thread = threading.Thread(target=lambda: made.append(trac_t64.check("#(pss,a)'").suspicions))
    thread.start()
    thread.join(60)
    assert made == [[(1, 1, 'no function has the name pss')]]


LEAKING = """
import sys
from trac_t64 import Session, run
from trac_t64._engine import Machine
def resident():
    with open('/proc/self/statm') as file: return int(file.read().split()[1]) * 4096
def use(count):
    for number in range(count):
        session = Session(2000)
        session.feed(b"#(ds,A,(x,y))#(ss,A,x)#(ps,##(cl,A,hello))'" + bytes(9000))
        twin = session.copy()
        twin.feed(b"'#(rs)"), session.forms(), session.neutral, session.active, twin.forms(), session.unread
        twin.arguments
        if number % 3: session.close()
        if number % 2: session, twin = twin, session
        for call in (lambda: session.feed(7), lambda: Session(0)):
            try: call()
            except (TypeError, ValueError): pass
    run(b"#(ps,hello)'")
# at first the C library keeps some memory that was given back to it
for _ in range(5): use(1500)
before, references = resident(), sys.getrefcount(Machine)
use(10000)
print(resident() - before, sys.getrefcount(Machine) - references)
"""


def test_ten_thousand_sessions_leak_nothing(python_site):
    grown, references = map(int, python_package.python(python_site, LEAKING).split())
    assert grown < 300000 and references == 0


REFUSED = """
import resource
from trac_t64 import Session, run
def allow(more):
    with open('/proc/self/statm') as file: used = int(file.read().split()[0]) * 4096
    resource.setrlimit(resource.RLIMIT_AS, (used + more, resource.RLIM_INFINITY))
def refused(call):
    try: call()
    except MemoryError: return True
    return False
session = Session(20000, 10**9)
script = b"#(ds,A,%s)#(ds,L,(#(ps,##(cl,A))#(cl,L)))#(cl,L)'" % (b'0123456789' * 500)
session.feed(script, most=0)
allow(30000000)
print(refused(lambda: Session(16777216)), refused(lambda: run(script, 16777216)))
big = Session(1000000)
print(refused(lambda: [big.copy() for _ in range(9)]), refused(lambda: big.feed(bytes(40000000))), big.unread == b'')
big.close()
print(refused(lambda: session.feed(b'', most=10**8)), session.fate.value)
steps, taken = session.steps, 10**8 - session.steps
resource.setrlimit(resource.RLIMIT_AS, (resource.RLIM_INFINITY, resource.RLIM_INFINITY))
output = session.feed(b'', most=1000)
print(session.steps == steps + 1000, output == b'0123456789' * (len(output) // 10), len(output) > 5000000)
whole = run(script, 20000, session.steps)
print(output == whole.output, whole.steps == session.steps)
"""


def test_memory_that_is_refused(python_site):
    assert python_package.python(python_site, REFUSED).split() == [
        *['True'] * 5, 'True', 'wants', 'output', *['True'] * 5]


LINES_REFUSED = """
import resource
from trac_t64 import Session
session, views = Session(65536), {'calls': True, 'width': 0, 'columns': 8}
session.feed(b"#(ps,(%s))#(ps,b)#(ps,c)'" % (b'\\x01' * 65000), most=0)
session.end(most=0)
whole, shown = session.copy().trace(**views), session.trace(**views)
with open('/proc/self/statm') as file: used = int(file.read().split()[0]) * 4096
resource.setrlimit(resource.RLIMIT_AS, (used + 10000000, resource.RLIM_INFINITY))
try:
    while shown.step() is not None: pass
except MemoryError: print(session.steps)
resource.setrlimit(resource.RLIMIT_AS, (resource.RLIM_INFINITY, resource.RLIM_INFINITY))
rest = list(type(shown)(session.copy()._machine, shown._words))
print(len(rest), list(whole)[-len(rest):] == rest)
print(session.step().number, session.steps)
print(len(shown.step()), session.steps)
"""


def test_a_step_is_made_whose_lines_find_no_memory(python_site):
    assert python_package.python(python_site, LINES_REFUSED).splitlines() == [
        '9', '520110 True', '10 10', '0 11']


# ---- The package itself.


def test_types(python_site):
    # without the dependencies of ipykernel, which take four fifths of the time
    python_package.call(['mypy', '--strict', '--follow-imports=skip', '-p', 'trac_t64', '--cache-dir', os.devnull,
                         '--config-file', os.path.join(TOP, 'hosts', 'python', 'pyproject.toml')],
                        env={**os.environ, 'MYPYPATH': str(python_site)}, cwd='/')


def test_the_types_of_the_machine_name_what_it_has(trac_t64):
    from trac_t64._engine import Machine as machine
    with open(os.path.join(TOP, 'hosts', 'python', 'trac_t64', '_engine.pyi'), encoding='utf-8') as stub:
        named = re.findall(r'^    def ([a-z]\w*)\(', stub.read(), re.MULTILINE)
    assert sorted(named) == [name for name in dir(machine) if not name.startswith('_')]


def test_the_examples_of_docstrings(python_site):
    script = 'import doctest, trac_t64\nprint(doctest.testmod(trac_t64))'
    assert python_package.python(python_site, script) == 'TestResults(failed=0, attempted=2)\n'


def test_the_archive_and_the_wheel(python_site, tmp_path):
    sources = python_package.copy_sources(tmp_path / 'sources')
    python_package.call([sys.executable, '-m', 'build', '--no-isolation', '--outdir', tmp_path / 'dist', sources],
                        env={**os.environ, **python_package.QUICK, 'CFLAGS': '-O0 -g0'})
    with open(os.path.join(TOP, 'VERSION'), encoding='utf-8') as file:
        version = file.read().strip()
    archive, wheel = sorted(os.listdir(tmp_path / 'dist'))
    assert archive == f'trac-t64-{version}.tar.gz' and wheel.startswith(f'trac_t64-{version}-cp311-abi3-')
    python_package.call([sys.executable, '-m', 'pip', 'install', '--quiet', '--no-index', '--no-deps', '--target',
                         tmp_path / 'site', tmp_path / 'dist' / wheel], env={**os.environ, **python_package.QUICK})
    script = 'import trac_t64\nprint(trac_t64.run("#(ps,hello)").text)'
    assert python_package.python(tmp_path / 'site', script) == 'hello\n'
    installed = {name for name in os.listdir(python_site / 'trac_t64') if name != '__pycache__'}
    assert installed == {name for name in os.listdir(tmp_path / 'site' / 'trac_t64') if name != '__pycache__'}


def test_the_programs_of_the_pages(python_site, tmp_path):
    for name in ('docs/EMBEDDING.md', 'hosts/python/README.md'):
        with open(os.path.join(TOP, name), encoding='utf-8') as page:
            found = PROGRAM.findall(page.read())
        assert found, name
        for text, output in found:
            assert python_package.python(python_site, text, cwd=tmp_path) == output, name
