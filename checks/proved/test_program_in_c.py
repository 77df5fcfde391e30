"""The program in C, and the program over the crate for Rust, compared with the proved one: on every worked script,
case, example and exercise, with every device closed, full or missing, and on command lines that are refused, each has
the same output, messages and status. There are two exceptions: the tips of the proved program's command line, which the
others lack; and, for the program in Rust, its messages about refused command lines and its behaviour with a standard
device that can't be used."""
import glob
import os
import pathlib
import re
import resource
import subprocess
import sys
import tempfile
import unittest

from rows import rows
from rust_library import run_program
from test_pipes import calls
from test_program import REFUSED, into_closed_pipe, into_full, into_nothing
from trac import IN_C, PROVED, TOP, make

sys.path.append(os.path.join(TOP, 'conformance'))
from run import answer, cases  # noqa: E402

TIP = re.compile(rb'\n\n  tip: [^\n]*(?:\n  tip: [^\n]*)*')
HELLO = b"#(ps,hello)'"

# Words that are refused, and some that are not, in the order in which the command line is looked through.
LINES = [words.split() for words in REFUSED] + [
    ['-h'], ['--help'], ['-h=3'], ['-hx'], ['--help='], ['--help=x'], ['--report='], ['--report=yes'], ['--', 'x'],
    ['--'], ['-'], [''], [' '], ['x', '--help'], ['--help', 'x'], ['-x'], ['-xh'], ['-x=3'], ['-é'], ['--é'], ['é'],
    ['--unknown=3'], ['--cell', '5'], ['--='], ['--=5'], ['---'], ['-1'], ['a=b'], ['--Report'],
    ['--cells', '--report'],
    ['--cells', '--report=yes'], ['--cells', '--'], ['--cells', '-5'], ['--cells', '-x', '5'], ['--cells', 'x', '-y'],
    ['--cells', 'x', 'y'], ['--cells', 'x', '--help'], ['--cells', 'x', '--help=y'], ['--cells', 'x', '--steps', 'y'],
    ['--cells', '5', '--cells', 'x'], ['--cells=5', '--cells=6'], ['--cells='], ['--cells', ''], ['--cells=+'],
    ['--cells=-'], ['--cells=-0'], ['--cells=-5'], ['--cells=+5'], ['--cells=0x10'], ['--cells=1_000'], ['--cells=٣'],
    ['--cells=1e3'], ['--cells= 1'], ['--cells==5'], ['--cells=9223372036854775808'],
    ['--cells=-9223372036854775808'], ['--cells=-9223372036854775809'], ['--cells=99999999999999999999x'],
    ['--steps=-1'], ['--steps=-0'], ['--steps=9223372036854775808'], ['--steps=18446744073709551615'],
    ['--steps=18446744073709551616'], ['--steps=', '--cells'], ['--report', '--report=x'], ['--report', '--help'],
    ['--cells', '18', '--report', '--steps=', '9'], ['\n'], ['--cells', 'a\nb'], [b'--\xff'], [b'--cells=\xff', '-x'],
    ['--cells', '18', '--report'], ['--steps=7', '--cells=0018', '--report'],
]


def run(program, script, *words, **more):
    """The output of a program, its messages, and its status."""
    done = subprocess.run([program, *words], input=script, capture_output=True, timeout=60, **more)
    return done.stdout, TIP.sub(b'', done.stderr), done.returncode


def in_shell(program, command):
    """The same, of a command line of the shell in which "$1" is the program."""
    return run('sh', HELLO, '-c', command, 'sh', program)


def from_folder(program):
    folder = os.open(tempfile.gettempdir(), os.O_RDONLY)
    done = subprocess.run([program, '--report'], stdin=folder, capture_output=True, timeout=60)
    os.close(folder)
    return done.stdout, done.stderr, done.returncode


def into_file_of(size):
    """A way to run a program whose output's file can't grow past a size."""
    def ended(program):
        with tempfile.TemporaryFile() as file:
            done = subprocess.run([program], input=b'#(ps,' + b'x' * 5000 + b")'", stdout=file, stderr=subprocess.PIPE,
                                  preexec_fn=lambda: resource.setrlimit(resource.RLIMIT_FSIZE, (size, size)))
            file.seek(0)
            return file.read(), done.stderr, done.returncode
    return ended


DEVICES = {
    'a full output': lambda program: into_full(program, '--report', script=HELLO),
    'a pipe that nobody reads': lambda program: into_closed_pipe(program, '--report', script=HELLO),
    'no output': lambda program: into_nothing(program, '--report', script=HELLO),
    'no output for a help': lambda program: into_nothing(program, '-h'),
    'a full output for a help': lambda program: into_full(program, '-h'),
    'a folder': from_folder,
    'no input': lambda program: in_shell(program, '"$1" --report <&-'),
    'an input that only takes': lambda program: in_shell(program, '"$1" --report 0>/dev/null'),
    'an output that only gives': lambda program: in_shell(program, '"$1" --report 1</dev/null'),
    'no standard error': lambda program: in_shell(program, '"$1" --report 2>&-'),
    'a full standard error': lambda program: in_shell(program, '"$1" --report 2>/dev/full'),
    'no device at all': lambda program: in_shell(program, '"$1" --report <&- >&- 2>&-'),
    'the null device': lambda program: in_shell(program, '"$1" --report </dev/null >/dev/null'),
    'an endless input': lambda program: in_shell(program, '"$1" --cells 100 --report </dev/zero'),
    'a file that is full': into_file_of(1000),
    'a file that is not full': into_file_of(5000),
    'little memory': lambda program: run(program, HELLO, '--cells', '16777216', preexec_fn=lambda: resource.setrlimit(
        resource.RLIMIT_AS, (100000000, 100000000))),
}


# Rust's std takes a standard device that can't be used for one that is empty, and takes all.
OTHERWISE_IN_RUST = {'no output', 'no output for a help', 'no input', 'an input that only takes',
                     'an output that only gives', 'no device at all'}


class Beside(unittest.TestCase):
    program, devices = IN_C, DEVICES

    @classmethod
    def setUpClass(cls):
        make('build/trac')

    def same(self, do):
        self.assertEqual(do(self.program), do(PROVED))

    def test_each_row(self):
        for row in rows():
            words = ['--report', '--cells', str(row.cells), '--steps', str(row.allowed)]
            with self.subTest(row=row):
                self.same(lambda program: run(program, row.script, *words))

    def test_each_case(self):
        found = [case for path in sorted(pathlib.Path(TOP, 'conformance').glob('*.cases')) for case in cases(path)]
        self.assertGreater(len(found), 600)
        for case in found:
            def ended(program):
                done = answer([program, '--cells', case['cells'], '--steps', case['allowance'], '--report'], case)
                return done.stdout, done.stderr, done.returncode
            with self.subTest(case=case['name']):
                self.same(ended)

    def test_each_example_and_exercise(self):
        scripts = glob.glob(os.path.join(TOP, 'examples', '**', '*.trac'), recursive=True)
        self.assertGreater(len(scripts), 40)
        for name in scripts:
            with self.subTest(script=os.path.basename(name)), open(name, 'rb') as file:
                script = file.read()
                self.same(lambda program: run(program, script, '--report'))

    def test_each_device(self):
        for name, do in self.devices.items():
            with self.subTest(device=name):
                self.same(do)

    def test_each_command_line(self):
        self.assertGreater(len(LINES), 60)
        for words in LINES:
            with self.subTest(words=words):
                self.same(lambda program: run(program, HELLO, *words))

    def test_lines_on_standard_error(self):
        for words in (['--report'], ['--cells', '18'], ['--steps', '9', '--report'], ['--cells', '16777216']):
            with self.subTest(words=words):
                self.same(lambda program: calls(HELLO, *words, program=program))

    def test_reads_and_writes(self):
        # of prints that the proved program's buffer holds; it writes longer ones in parts
        for script in (HELLO, b"#(ps,#(rs))'abc'#(ps,#(rc))x", b"#(ps,a)#(ps,b)'" * 2000, b"#(ds,A,b)'" * 5000,
                       b'x' * 8000, b"#(hl)'" + b'x' * 20000):
            with self.subTest(script=script[:20]):
                self.same(lambda program: calls(script, program=program))


class InRust(Beside):
    devices = {name: do for name, do in DEVICES.items() if name not in OTHERWISE_IN_RUST}
    test_each_command_line = test_reads_and_writes = None

    @classmethod
    def setUpClass(cls):
        super().setUpClass()
        cls.program = run_program()


if __name__ == '__main__':
    unittest.main()
