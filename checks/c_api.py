"""Checks of any engine behind trac.h, made through a C program: each script does there what it does in the built
program, in one run and in pieces."""
import os
import subprocess

from rows import Row, rows
from trac import TOP, report

HEADERS = os.path.join(TOP, 'hosts', 'c')
DRIVER = os.path.join(TOP, 'checks', 'c_library.c')
STRICT = ['-std=c11', '-Wall', '-Wextra', '-Wpedantic', '-Werror', '-O2']
# A sanitizer sees no less in unoptimized code, which compiles in a tenth of the time.
SANITIZED = [*STRICT, '-O0', '-g', '-fsanitize=address,undefined', '-fno-sanitize-recover=all']
# An engine allocates no memory that it could leak; the search for leaks takes most of a short run's time.
os.environ.setdefault('ASAN_OPTIONS', 'detect_leaks=0')

INPUT_ENDED, WORKSPACE, STEPS, OUTPUT_FAILED, REFUSED = 2, 3, 4, 6, 9
STATUS = {1: 0, INPUT_ENDED: 0, WORKSPACE: 1, STEPS: 3}

# The number of bytes by which the input of a turn grows.
PIECES = (1, 2, 3, 7, 64)


def compiled(folder, compiler, flags, engine, source=DRIVER):
    """A program in C over an engine."""
    program = os.path.join(folder, f'{compiler}{len(os.listdir(folder))}')
    subprocess.run([compiler, '-I', HEADERS, '-o', program, *flags, source, '-x', 'none', engine],
                   check=True)
    return program


def call(program, script, *numbers):
    """What a run printed, and the numbers of its report."""
    done = subprocess.run([program, *map(str, numbers)], input=script, capture_output=True,
                          timeout=60)
    if done.returncode:
        raise AssertionError(f'{done.returncode}: {done.stderr.decode()}')
    return done.stdout, *map(int, done.stderr.split())


def turns(program, row, most, sizes):
    """The same for runs in turns of a number of steps, one run for each size of the output and of the pieces."""
    words = [str(number) for pair in sizes for number in pair]
    done = subprocess.run([program, 'turns', str(row.cells), str(row.allowed), str(most), *words],
                          input=row.script, capture_output=True, timeout=60)
    if done.returncode:
        raise AssertionError(f'{done.returncode}: {done.stderr.decode()}')
    found, output = [], done.stdout
    for line in done.stderr.splitlines():
        numbers = [int(number) for number in line.split()]
        found.append((output[:numbers[3]], *numbers))
        output = output[numbers[3]:]
    if output or len(found) != len(sizes):
        raise AssertionError(f'{row}: {len(found)} runs, and {output} behind them')
    return found


def codes(text):
    return [int(word) for word in text.split()]


def view(program, row, most):
    """What is seen of a machine before each of the first steps of a script, of its forms afterwards, and how many
    displays were compared with what `pf` prints."""
    done = subprocess.run([program, 'view', str(row.cells), str(row.allowed), str(most)],
                          input=row.script, capture_output=True, timeout=60)
    if done.returncode:
        raise AssertionError(f'{row}: {done.returncode}: {done.stderr.decode()}')
    *lines, compared = done.stdout.decode().splitlines()
    parts = [[codes(part) for part in line.replace('form', '').split('|')] for line in lines]
    first = [line.startswith('form') for line in lines].index(True)
    return parts[:first], parts[first:], int(compared.split()[1])


class Engine:
    """Checks of an engine behind the names of trac.h. `programs` are the driver linked with it: built by two compilers,
    and one with which most is run, with sanitizers if these see more."""

    def test_each_row_at_once(self):
        for row in rows():
            wanted = (row.output, row.status, row.steps, row.peak, len(row.output))
            for program in self.programs:
                with self.subTest(row=row, program=program):
                    output, fate, steps, peak, written, consumed, left = call(
                        program, row.script, row.cells, row.allowed, len(row.output))
                    self.assertEqual((output, STATUS.get(fate), steps, peak, written), wanted)
                    self.assertLessEqual(consumed, len(row.script))
                    self.assertEqual(left, 0)
                    if fate == INPUT_ENDED:
                        self.assertEqual(consumed, len(row.script))

    def test_each_row_in_turns(self):
        for most in (1, 1000):
            # the third program at one size of a turn and two of pieces, which is enough for it
            program = self.programs[2 if most == 1000 else 0]
            for row in rows():
                sizes = [(len(row.output), piece) for piece in (PIECES if most == 1 else PIECES[::3])]
                for size, told in zip(sizes, turns(program, row, most, sizes)):
                    output, fate, steps, peak, written, consumed, left = told
                    with self.subTest(row=row, size=size, most=most):
                        self.assertEqual(
                            (output, STATUS.get(fate), steps, peak, written),
                            (row.output, row.status, row.steps, row.peak, len(row.output)))
                        self.assertLessEqual(consumed, len(row.script))
                        self.assertEqual(left, 0)

    def test_each_row_in_turns_with_little_room_for_output(self):
        sizes = [(room, 7) for room in (0, 1, 5)]
        for row in rows():
            for size, told in zip(sizes, turns(self.programs[2], row, 1000, sizes)):
                output, fate, steps, peak, written, *_ = told
                with self.subTest(row=row, size=size):
                    self.assertEqual(
                        (output, STATUS.get(fate), steps, peak, written),
                        (row.output, row.status, row.steps, row.peak, len(row.output)))

    def test_what_a_step_awaits_and_the_meta_character(self):
        row = Row(b"#(cm,!)'#(ps,#(rc))!x", 100, 1000, b'x', 0, 0, 0)
        steps, _, _ = view(self.programs[2], row, 1000)
        # nine steps of the idling procedure, and six of the call
        self.assertEqual([parts[0][2] for parts in steps], [39] * 15 + [33] * (len(steps) - 15))
        self.assertEqual([parts[0][1] for parts in steps if parts[0][1]], [1, 1, 2, 1])

    def test_what_a_step_takes_and_when_a_call_comes(self):
        ends = {0, 7}  # the rules idling and end of call
        taken = dropped = opened = 0
        for row in rows():
            with self.subTest(row=row):
                steps, _, _ = view(self.programs[2], row, 300)
                for place, (numbers, neutral, active, calls, ahead) in enumerate(steps):
                    marks = [place for place, code in enumerate(neutral) if code in (256, 257)]
                    self.assertEqual(calls, marks[::-1])
                    opened += len(calls)
                    takes, drops, few, all_of_them = ahead
                    coming = [step[0][0] in ends for step in steps[place:]]
                    if True in coming:
                        self.assertEqual(all_of_them, coming.index(True))
                    self.assertEqual(few, min(4, all_of_them))
                    if place + 1 < len(steps) and numbers[0] not in ends:
                        after = steps[place + 1]
                        self.assertEqual(active[takes:], after[2])
                        is_lost = numbers[0] == 2 and after[1] == neutral and active[:2] != [*b'()']
                        self.assertEqual(drops, takes if is_lost else 0)
                        taken += takes > 3
                        dropped += drops > 0
        self.assertGreater(min(taken, dropped, opened), 5)

    def test_the_forms_of_each_row(self):
        compared = 0
        for row in rows():
            with self.subTest(row=row):
                _, forms, more = view(self.programs[2], row, 0)
                compared += more
                # there is none after the last form
                self.assertEqual(forms.pop(), [[0], [], [], []])
                for [pointer], _, text, body in forms:
                    items = [chr(code) if code < 256 else f'<{code - 255}>' for code in body]
                    items.insert(pointer, '<^>')
                    self.assertEqual(''.join(map(chr, text)), ''.join(items))
        self.assertGreater(compared, 100)

    def test_a_form_that_is_segmented(self):
        row = Row(b"#(ds,,x)#(ds,AB,p-q-)#(ss,AB,-,q)#(cc,AB)'", 60, 1000, b'', 0, 0, 0)
        _, forms, _ = view(self.programs[2], row, 0)
        self.assertEqual(forms, [
            [[0], [], [*b'<^>x'], [*b'x']],
            [[1], [*b'AB'], [*b'p<^><1><2><1>'], [ord('p'), 256, 257, 256]],
            [[0], [], [], []],
        ])

    def test_a_string_that_the_cells_can_not_hold(self):
        sizes = [(64, piece) for piece in (1, 7, 64)]
        for length in range(1, 40):
            script = b'x' * length
            for cells in range(11, 31):
                wanted = report(script, '--cells', str(cells))
                row = Row(script, cells, 1000, *wanted)
                for size, told in zip(sizes, turns(self.programs[0], row, 1000, sizes)):
                    output, fate, steps, peak, *_ = told
                    with self.subTest(length=length, cells=cells, size=size):
                        self.assertEqual((output, steps, peak, STATUS[fate]), wanted)

    def test_an_output_that_is_too_small(self):
        for row in rows():
            if row.status or not row.output:
                continue
            for room in {0, len(row.output) // 2, len(row.output) - 1}:
                with self.subTest(row=row, room=room):
                    output, fate, steps, _, written, _, _ = call(
                        self.programs[2], row.script, row.cells, row.allowed, room)
                    self.assertEqual((output, fate, written),
                                     (row.output[:room], OUTPUT_FAILED, room))
                    self.assertLess(steps, row.steps)

    def test_more_cells_than_a_machine_may_have(self):
        hello = b"#(ps,hello)'"
        for program in self.programs:
            self.assertEqual(call(program, hello, 16777217, 1000, 9), (b'', REFUSED, 0, 0, 0, 0, 0))
        self.assertEqual(call(self.programs[0], hello, 16777216, 1000, 9)[:2],
                         (b'hello', INPUT_ENDED))
