"""The library for C, through a C program over trac.h: each script does there what it does in the built program, and
each step shows what trac_trace shows. Two compilers accept the header, also as C++."""
import os
import re
import shutil
import subprocess
import tempfile
import unittest

from c_api import SANITIZED, STRICT, Engine, compiled, view
from rows import rows
from trac import TOP, make, whole_trace

LIBRARY = os.path.join(TOP, 'dist', 'libtrac.a')
EXAMPLE = os.path.join(TOP, 'examples', 'embedding_c', 'embedding.c')

AS_CPP = ['-std=c++17', *STRICT[1:], '-x', 'c++']

# What the library may leave to the program that it is linked with: the moves of memory, and the
# compiler's own arithmetic on numbers of 128 bits.
LEFT_OPEN = {'memcpy', 'memmove', 'memset', '__divti3', '__udivti3', '__modti3', '__umodti3',
             '__multi3', '__muloti4'}

# The most steps of a row whose strings are compared with those of its trace.
SEEN = 200

RULES = ('idling', 'layout', 'protection', 'argument', 'active call', 'neutral call', 'number sign',
         'end of call', 'character')
MARKS = {256: '<#>', 257: '<##>', 258: '<,>'}
ESCAPED = {9: r'\t', 10: r'\n', 13: r'\r', 92: r'\\'}

# The bytes of stack that trac_run needs in addition to its caller's.
STACK = 8 * 1024


def shown(code):
    """A code as a trace shows it."""
    if code in MARKS or code in ESCAPED:
        return MARKS.get(code) or ESCAPED[code]
    return chr(code) if 32 <= code <= 126 else f'\\x{code:02x}'


def traced(row):
    """The steps of a row's trace: the rule, the size before it, and both strings after it."""
    lines, _ = whole_trace(row.script, '--cells', str(row.cells), '--steps', str(row.allowed))
    return [(line[8:21].rstrip(), int(line[21:27]), line[35:]) for line in lines
            if re.match(r' *\d+  [a-z]', line)]


class Library(Engine, unittest.TestCase):
    @classmethod
    def setUpClass(cls):
        make('dist/libtrac.a')
        cls.folder = tempfile.mkdtemp()
        cls.addClassCleanup(shutil.rmtree, cls.folder)
        kinds = (('gcc', STRICT), ('clang', STRICT), ('gcc', SANITIZED), ('g++', AS_CPP))
        cls.programs = [compiled(cls.folder, *kind, LIBRARY) for kind in kinds]

    def test_what_each_row_shows_before_each_step(self):
        for row in rows():
            if not 0 < row.steps <= SEEN:
                continue
            with self.subTest(row=row):
                steps, _, _ = view(self.programs[2], row, SEEN)
                wanted = traced(row)
                self.assertGreaterEqual(len(steps), len(wanted))
                before = '|'
                for ((rule, awaits, _, *cells), neutral, active, *_), (name, size, after) in zip(
                        steps, wanted):
                    self.assertEqual(
                        ''.join(map(shown, neutral)) + '|' + ''.join(map(shown, active)), before)
                    self.assertEqual(RULES[rule], name)
                    self.assertEqual((sum(cells), cells[1], cells[2], cells[3]),
                                     (row.cells, len(neutral), row.cells - size, len(active)))
                    if awaits:
                        self.assertEqual(name, 'end of call')
                    before = after

    def test_pointers_that_are_refused(self):
        done = subprocess.run([self.programs[2], 'pointers'], capture_output=True, timeout=60)
        self.assertEqual((done.returncode, done.stderr), (0, b''))

    def test_what_the_library_leaves_open(self):
        names = subprocess.run(['nm', '--undefined-only', LIBRARY], capture_output=True, check=True)
        found = set(re.findall(r' U (\S+)', names.stdout.decode()))
        self.assertLessEqual(found, LEFT_OPEN)

    def test_the_stack_that_it_needs(self):
        for row in rows():
            done = subprocess.run(
                [self.programs[0], *map(str, (row.cells, row.allowed, len(row.output), STACK))],
                input=row.script, capture_output=True, timeout=60)
            self.assertEqual((done.stdout, done.returncode), (row.output, 0), row)

    def test_the_example(self):
        with open(EXAMPLE, encoding='utf-8') as lines:
            self.assertLess(len(lines.readlines()), 80)
        for compiler in ('gcc', 'clang'):
            program = compiled(self.folder, compiler, STRICT, LIBRARY, EXAMPLE)
            done = subprocess.run([program], capture_output=True, timeout=60, check=True)
            with open(EXAMPLE[:-1] + 'out', 'rb') as wanted:
                self.assertEqual(done.stdout, wanted.read())
