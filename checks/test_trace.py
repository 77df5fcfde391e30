"""Traces: the tables of steps of two scripts that were worked out by hand, row by row, and the lines for unusual bytes
and for faults."""
import os
import re
import resource
import subprocess
import tempfile
import unittest
from concurrent.futures import ThreadPoolExecutor

from rows import rows as known
from trac import PROVED_TRACER, TRACER, instructions, trace, traced

# A run over no input: the step, its rule, the size before it, its need, the active string after it.
NOTHING = [
    (1, 'idling', 0, 11, '#(ps,#(rs))'),
    (2, 'active call', 11, 11, 'ps,#(rs))'),
    (3, 'character', 10, 10, 's,#(rs))'),
    (4, 'character', 10, 10, ',#(rs))'),
    (5, 'argument', 10, 10, '#(rs))'),
    (6, 'active call', 10, 10, 'rs))'),
    (7, 'character', 9, 9, 's))'),
    (8, 'character', 9, 9, '))'),
    (9, 'end of call', 9, 8, None),
]

# A greeting: its steps up to the 8th are those of a run over
# no input, and from the 22nd on they are so again.
HELLO = [
    (9, 'end of call', 9, 19, '#(ps,hello))'),
    (10, 'active call', 16, 16, 'ps,hello))'),
    (11, 'character', 15, 15, 's,hello))'),
    (12, 'character', 15, 15, ',hello))'),
    (13, 'argument', 15, 15, 'hello))'),
    (14, 'character', 15, 15, 'ello))'),
    (15, 'character', 15, 15, 'llo))'),
    (16, 'character', 15, 15, 'lo))'),
    (17, 'character', 15, 15, 'o))'),
    (18, 'character', 15, 15, '))'),
    (19, 'end of call', 15, 14, ')'),
    (20, 'end of call', 5, 4, ''),
    (21, 'idling', 0, 11, '#(ps,#(rs))'),
]

# A form that is defined: the step, the size before it and its
# need, for the steps where something is built or leaves.
DEFINED = [(9, 9, 17), (10, 14, 14), (17, 13, 17), (18, 10, 9), (19, 5, 16), (27, 14, 13)]


def later(steps, more):
    return [(number + more, *rest) for number, *rest in steps]


class Tables(unittest.TestCase):
    def compare(self, lines, wanted):
        got = traced(lines)
        self.assertEqual(len(got), len(wanted))
        for (number, rule, size, need, _, active), row in zip(got, wanted):
            with self.subTest(step=number):
                self.assertEqual((number, rule, size, need), row[:4])
                if row[4] is not None:
                    self.assertEqual(active, row[4])

    def test_no_input(self):
        lines, status = trace(b'')
        self.compare(lines, NOTHING)
        self.assertEqual((lines[-1], status), ('input ended: 9 steps, peak 11 cells', 0))

    def test_a_greeting(self):
        lines, status = trace(b"#(ps,hello)'")
        self.compare(lines, NOTHING[:8] + HELLO + later(NOTHING[1:], 20))
        self.assertEqual(lines[20], '        prints: hello')
        self.assertEqual((lines[-1], status), ('input ended: 29 steps, peak 19 cells', 0))

    def test_a_form(self):
        found = {number: (size, need)
                 for number, _, size, need, _, _ in traced(trace(b"#(ds,A,b)'")[0])}
        for number, size, need in DEFINED:
            self.assertEqual(found[number], (size, need))
        found = {number: need for number, _, _, need, _, _ in traced(trace(b"#(ds,A,b)'" * 3)[0])}
        self.assertEqual([found[number] for number in (17, 27, 35, 45, 53)], [17, 22, 22, 22, 22])


class Lines(unittest.TestCase):
    def test_marks_and_odd_bytes(self):
        lines, _ = trace(b"##(ps,(\t\\\x00\xc3|,))'")
        shown = '\\t\\\\\\x00\\xc3|,'
        self.assertEqual(lines[14][35:], '<#>ps<,><##>ps<,>' + shown + '|))')
        self.assertEqual(lines[16], '        prints: ' + shown)

    def test_faults(self):
        for words, last, status in [
                (['--cells', '18'], 'workspace full: 8 steps, peak 11 cells', 1),
                (['--steps', '18'], 'allowance used up: 18 steps, peak 19 cells', 3)]:
            lines, got = trace(b"#(ps,hello)'", *words)
            self.assertEqual(got, status)
            self.assertIn(last, lines)
        self.assertEqual(trace(b"#(hl)'")[0][-1], 'halted: 13 steps, peak 13 cells')

    def test_the_lines_of_a_fault(self):
        self.assertEqual(trace(b"#(hl)'", '--cells', '20', '--steps', '5'), ([
            '  step  rule           size  need  neutral string|active string',
            '     1  idling            0    11  |#(ps,#(rs))',
            '     2  active call      11    11  <#>|ps,#(rs))',
            '     3  character        10    10  <#>p|s,#(rs))',
            '     4  character        10    10  <#>ps|,#(rs))',
            '     5  argument         10    10  <#>ps<,>|#(rs))',
            'allowance used up: 5 steps, peak 11 cells',
            'at step 6, in the string that begins at line 1, column 1',
            'open call: #(ps<,>',
            'cells: forms 0, neutral string 4, active string 6, free 10'], 3))

    def test_the_last_step(self):
        self.assertEqual(trace(b'', '--cells', '20', '--steps', '50', '--last', '1'), ([
            '  step  rule           size  need  neutral string|active string',
            '     9  end of call       9     8  <#>ps<,><#>rs|)',
            'input ended: 9 steps, peak 11 cells'], 0))

    def test_words_that_are_taken(self):
        looping = b"#(ds,L,(#(cl,L)))#(cl,L)'"
        self.assertIn('allowance used up: 1000000 steps, peak 36 cells', trace(looping, '--last', '1')[0])
        for words in ['--steps=1000000000000', '--cells=16777216', '--from 3 --to=9 --last 7']:
            self.assertEqual(trace(b'', *words.split())[1], 0)

    def test_words_that_are_refused(self):
        for words in ['--cells 0', '--steps 0', '--cells 16777217', '--steps 1000000000001',
                      '--from 0', '--last 1000001', '--columns 16777217', 'extra']:
            with self.subTest(words=words):
                self.assertEqual(trace(b'', *words.split()), ([], 2))

    def test_devices_that_fail(self):
        folder = os.open(tempfile.gettempdir(), os.O_RDONLY)
        done = subprocess.run([TRACER], stdin=folder, capture_output=True)
        os.close(folder)
        self.assertIn(b'\ninput failed: 8 steps, peak 11 cells\n', done.stdout)
        self.assertEqual(done.returncode, 4)
        with open('/dev/full', 'wb') as full:
            done = subprocess.run([TRACER], input=b'', stdout=full, stderr=subprocess.PIPE)
        self.assertEqual(done.returncode, 5)


class StandardError(unittest.TestCase):
    def test_each_text_is_one_write(self):
        few = 40 * 1024 * 1024
        for words, begins, limit in [
                (['--what'], "error: unexpected argument '--what' found", None),
                (['--cells', '9' * 3000], "error: invalid value '9999", None),
                (['--check'], 'trac_trace: --check needs the name of a file\n', None),
                (['--check', '/' + 'x' * 9 * 300], "trac_trace: can't read /xxx", None),
                (['--cells', '16777216'], 'trac_trace: no memory\n',
                 lambda: resource.setrlimit(resource.RLIMIT_AS, (few, few)))]:
            with self.subTest(words=words[:2]), tempfile.NamedTemporaryFile('r') as calls:
                done = subprocess.run(['strace', '-o', calls.name, '-e', 'trace=write', TRACER, *words],
                                      input='', capture_output=True, text=True, preexec_fn=limit, timeout=60)
                self.assertTrue(done.stderr.startswith(begins), done.stderr[:99])
                self.assertEqual(re.findall(r'^write\(2,.* = (\d+)$', calls.read(), re.MULTILINE),
                                 [str(len(done.stderr))])


SCRIPT = (b"#(ds,A,(xTy))'#(ss,A,T)##(cl,A,\xc3\xa4)#(cs,A,Z)#(zz)#(cl,b)#(,remark)##(dv,1,0,Z)"
          b"#(dd,A,Q)'#(ds,A,b)#(ds,B,c)#(da)#(cm,!)'#(ds,C,x)!")

# The calls of that script, behind the number and two blanks, but for those of the idling procedure.
CALLED = [
    '  #(ds<,>A<,>xTy) form A: <^>xTy',
    '  #(ss<,>A<,>T) form A: <^>x<1>y',
    '  ##(cl<,>A<,>\u00e4) = x\u00e4y',
    '  #(cs<,>A<,>Z) = x form A: x<1><^>y',
    '  #(zz) [no function]',
    '  #(cl<,>b) [no form]',
    '  #(<,>remark)',
    '  ##(dv<,>1<,>0<,>Z) = Z [default]',
    '  #(dd<,>A<,>Q) deletes A',
    '#(ps<,>x\u00e4yxZ) prints x\u00e4yxZ',
    '  #(ds<,>A<,>b) form A: <^>b',
    '  #(ds<,>B<,>c) form B: <^>c',
    '  #(da) deletes A deletes B',
    '  #(cm<,>!)',
    '  #(ds<,>C<,>x) form C: <^>x',
]

# The forms of it.
CHANGED = [
    'form A: <^>xTy', 'form A: <^>x<1>y', 'form A: x<1><^>y', 'deletes A', 'form A: <^>b',
    'form B: <^>c', 'deletes A deletes B', 'form C: <^>x',
]


def outside_idling(calls):
    return [call for call in calls if '#(rs)' not in call and call != '#(ps<,>)']


class Views(unittest.TestCase):
    def test_some_of_the_steps(self):
        whole, _ = trace(b"#(ps,hello)'")
        for words, first, last in [
                (['--from', '3', '--to', '5'], 3, 5), (['--from', '28'], 28, 29),
                (['--to', '2'], 1, 2), (['--last', '3'], 27, 29),
                (['--last', '100'], 1, 29), (['--last', '5', '--to', '26'], 25, 26)]:
            with self.subTest(words=words):
                lines, status = trace(b"#(ps,hello)'", *words)
                self.assertEqual(status, 0)
                self.assertEqual((lines[0], lines[-1]), (whole[0], whole[-1]))
                self.assertEqual([row[0] for row in traced(lines)], list(range(first, last + 1)))
                self.assertEqual(traced(lines), traced(whole)[first - 1:last])

    def test_calls(self):
        lines, status = trace(SCRIPT, '--calls')
        self.assertEqual((lines[0], status), ('  step  call', 0))
        self.assertEqual(outside_idling(line[8:] for line in lines[1:-1]), CALLED)
        numbers = [int(line[:6]) for line in lines[1:-1]]
        ended = [row[0] for row in traced(trace(SCRIPT)[0]) if row[1] == 'end of call']
        self.assertEqual(numbers, ended)

    def test_forms(self):
        lines, status = trace(SCRIPT, '--forms')
        self.assertEqual((lines[0], status), ('  step  form', 0))
        self.assertEqual([line[8:] for line in lines[1:-3]], CHANGED)
        self.assertRegex(lines[-3], '^input ended: ')
        self.assertEqual(lines[-2:], ['form C: <^>x', 'meta character: !'])
        both, _ = trace(SCRIPT, '--forms', '--calls')
        calls, _ = trace(SCRIPT, '--calls')
        self.assertEqual(both, calls + lines[-2:])

    def test_texts_that_are_cut(self):
        lines, _ = trace(b"#(ps,0123456789)'", '--calls', '--width', '8')
        self.assertIn('#(ps<, .. 6789) prints 0123 .. 6789', [line[10:] for line in lines])
        lines, _ = trace(b"#(ps,0123456789)'", '--calls', '--width', '0')
        self.assertIn('#(ps<,>0123456789) prints 0123456789', [line[10:] for line in lines])

    def test_strings_of_steps_that_are_cut(self):
        lines, _ = trace(b"#(ps,0123456789)'", '--width', '8')
        self.assertEqual(traced(lines)[0][4:], ('', '#(ps .. rs))'))
        self.assertIn(('<#>ps<,> .. 6789', '))'), [row[4:] for row in traced(lines)])
        whole, _ = trace(b"#(ps,0123456789)'", '--width', '0')
        self.assertIn(('<#>ps<,><#>ps<,>0123456789', '))'), [row[4:] for row in traced(whole)])
        # so much of a string is shown, however long it grows
        grows = b"#(ds,L,(x#(cl,L)x))#(cl,L)'"
        lines, status = trace(grows, '--steps', '20000', '--cells', '1000000')
        self.assertEqual(status, 3)
        self.assertLess(max(map(len, lines)), 800)

    def test_the_last_of_what_a_view_shows(self):
        script = b"#(ds,A,x)#(ps,1)#(ds,B,y)#(ps,2)#(ds,C,z)#(ps,3)#(zz)'"
        calls = [line[6:] for line in trace(script, '--calls', '--last', '3')[0] if '(' in line]
        self.assertEqual([line.strip() for line in calls],
                         ['#(zz) [no function]', '#(ps<,>)', '#(rs)'])
        for words, wanted in [(['--last', '2'], 'BC'), (['--last', '9'], 'ABC'), (['--last', '1'], 'C'),
                              (['--last', '2', '--to', '40'], 'B')]:
            with self.subTest(words=words):
                lines = trace(script, '--forms', *words)[0]
                self.assertEqual(lines[0], '  step  form')
                self.assertEqual([line[13] for line in lines if re.match(r' +\d+  form', line)], list(wanted))

    def test_a_parenthesis_without_a_match(self):
        told = '        drops: {} characters, since a left parenthesis has no match'
        for words in [[], ['--calls']]:
            self.assertIn(told.format(5), trace(b"#(ps,a)((bc'", *words)[0])
            self.assertIn(told.format(3), trace(b"(('", *words)[0])
            self.assertIn(told.format(4), trace(b"#(ds,A,((x'", *words)[0])
        self.assertNotIn('drops', '\n'.join(trace(b"()(a)#(ps,((b)))'")[0]))
        self.assertNotIn('drops', '\n'.join(trace(b"#(ps,a)((bc'", '--forms')[0]))

    def test_lines_that_are_folded(self):
        script = "#(ps,(\u00e4\u00f6\u00fc 0123456789 0123456789 0123456789 0123456789 0123456789))'".encode()
        for words in [[], ['--calls'], ['--forms'], ['--calls', '--width', '0']]:
            whole = trace(script, *words)[0]
            for columns in (20, 40, 80):
                wanted = []
                for line in whole:
                    wanted.append(line[:columns])
                    rest = line[columns:]
                    while rest:
                        wanted.append(' ' * 10 + rest[:columns - 10])
                        rest = rest[columns - 10:]
                self.assertEqual(trace(script, *words, '--columns', str(columns))[0], wanted)

    def test_calls_in_many_others(self):
        lines, _ = trace(b'#(b,' * 25 + b'x' + b')' * 25 + b"'", '--calls')
        shown = [line[6:] for line in lines if '[no function]' in line]
        self.assertEqual(shown[0], ' ' * 42 + '25 #(b<,>x) [no function]')
        self.assertEqual(shown[5], ' ' * 42 + '#(b<,>) [no function]')
        self.assertEqual(shown[-1], ' ' * 4 + '#(b<,>) [no function]')

    def test_bytes_that_are_escaped_and_cut(self):
        # characters are shown whole; invalid and invisible bytes are shown as escapes
        for text, width, wanted in [
                (b'abcdef', 6, 'abcdef'), (b'abcdef', 5, 'abc .. ef'),
                ('\u00e4\u00e4\u00e4'.encode(), 3, '\u00e4 .. '),
                ('\u00e4\u00e4\u00e4'.encode(), 5, '\u00e4 .. \u00e4'),
                ('\u00e4\n\u20ac\U0001f600'.encode(), 0, '\u00e4\\n\u20ac\U0001f600'),
                ('\u202eab\u2066\u061c'.encode(), 0,
                 '\\xe2\\x80\\xaeab\\xe2\\x81\\xa6\\xd8\\x9c'),
                ('\u2030\u2065\u061d'.encode(), 0, '\u2030\u2065\u061d'),
                (b'\xc3\xc2\x85\x80\xed\xa0\x80', 0,
                 '\\xc3\\xc2\\x85\\x80\\xed\\xa0\\x80')]:
            with self.subTest(text=text, width=width):
                lines, _ = trace(b'#(ps,(' + text + b"))'", '--calls', '--width', str(width))
                shown = [line.split(' prints ')[1] for line in lines if ' prints ' in line]
                self.assertEqual(shown, [wanted])

    def test_what_is_told_of_a_fault(self):
        script = b"#(ds,A,abc)'\n #(ds,long,abcdef)'\n\n\t\t#(ps,(x)#(ad,1,"
        steps = int(trace(script)[0][-1].split(': ')[1].split()[0])
        for words in [[], ['--calls'], ['--last', '2']]:
            with self.subTest(words=words):
                lines, status = trace(script, '--steps', str(steps - 11), *words)
                self.assertEqual(status, 3)
                at = next(i for i, line in enumerate(lines) if line.startswith('allowance'))
                self.assertEqual(lines[at + 1:-1], [
                    f'at step {steps - 10}, in the string that begins at line 4, column 3',
                    'open call: #(ps<,>', 'open call: #(ps<,>x', 'open call: #(ad<,>1<,>',
                    'form of 13 cells: long', 'form of 7 cells: A'])
                self.assertRegex(lines[-1], '^cells: forms 20, neutral string ')
                self.assertEqual(sum(int(n) for n in re.findall(r'\d+', lines[-1])), 65536)

    def test_each_view_does_what_the_program_does(self):
        for row in known():
            few = row.steps <= 2000
            views = [['--calls', '--width', '40'], ['--forms'], ['--last', '3']] + [[]] * few
            words = ['--cells', str(row.cells), '--steps', str(row.allowed)]
            end = b': %d steps, peak %d cells\n' % (row.steps, row.peak)
            for view in views:
                with self.subTest(row=row, view=view):
                    lines, status = trace_bytes(row.script, *words, *view)
                    self.assertEqual(status, row.status)
                    self.assertIn(end, lines)
                    if not view:
                        self.assertEqual(printed_in(lines), shown(row.output))

    def test_a_view_of_what_is_suspicious_ends_as_the_program_does(self):
        for row in known():
            with self.subTest(row=row):
                lines, status = trace_bytes(row.script, '--warn', '--cells', str(row.cells),
                                            '--steps', str(row.allowed))
                said = len(lines.splitlines())
                end = b': %d steps, peak %d cells\n' % (row.steps, row.peak)
                self.assertEqual(lines.endswith(end), row.status != 0)
                self.assertEqual(status, row.status or (7 if said else 0))


class Costs(unittest.TestCase):
    def test_the_last_steps_cost_little(self):
        script, words = b"#(ds,f,(#(cl,f)))#(cl,f)'", ['--steps', '100000']
        lines, status = trace_bytes(script, *words, '--last', '20')
        self.assertIn(b'100000', lines)
        self.assertEqual(status, 3)
        # the instructions for each step, whatever a run takes without a trace
        most = 700 if TRACER == PROVED_TRACER else 1500
        self.assertLess(instructions([TRACER, *words, '--last', '20'], script), most * 100000)

    def test_costs_grow_as_the_forms(self):
        def script(forms):
            return b''.join(b'#(ds,F%d,x)#(ps,#(cl,F%d))#(dd,T)' % (k, k) for k in range(forms)) + b"'"
        for view in ('--forms', '--calls', '--warn'):
            words = [TRACER, view, '--cells', '1000000', '--steps', '1000000']
            with self.subTest(view=view), ThreadPoolExecutor() as pool:
                least, more, most = pool.map(lambda n: instructions(words, script(n)), (500, 1000, 2000))
                self.assertLess(more, 2.2 * least)
                self.assertLess(most, 2.2 * more)


def trace_bytes(script, *words):
    """What a trace writes, and its status."""
    done = subprocess.run([TRACER, *words], input=script, capture_output=True, timeout=60)
    return done.stdout, done.returncode


def printed_in(lines):
    """What the lines of steps say was printed, as they show it."""
    head = b'        prints: '
    return b''.join(line[len(head):] for line in lines.split(b'\n') if line.startswith(head))


def shown(output):
    """Printed bytes, as the lines of steps show them."""
    names = {9: b'\\t', 10: b'\\n', 13: b'\\r', 92: b'\\\\'}
    return b''.join(names.get(c) or (bytes([c]) if 32 <= c < 127 else b'\\x%02x' % c)
                    for c in output)
