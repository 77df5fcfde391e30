"""The tracer in C, compared with the proved one: on every worked script and example with each view, on random scripts
in few and in many cells, with devices that are closed, full or missing, and on command lines, each has the same output,
messages and status. COUNT in the environment is the number of random scripts: COUNT=5000 takes some minutes."""
import glob
import os
import random
import resource
import tempfile
import unittest
from concurrent.futures import ThreadPoolExecutor

from rows import rows
from test_program import into_closed_pipe, into_full, into_nothing
from test_program_in_c import LINES, in_shell, run
from trac import PROVED_TRACER, TOP, TRACER_IN_C, make

COUNT = int(os.environ.get('COUNT', 300))
HELLO = b"#(ps,hello)'"
NAMES = [b'A', b'B', b'long name', b'\xc3\xa4', b'\x01']
FUNCTIONS = (b'ps rs rc cm ds ss cl cs cc cn in eq gr ad su ml dv dd da ln pf hl zz tn').split()
VIEWS = [[], ['--calls'], ['--forms'], ['--calls', '--forms'], ['--warn']]
# Words of a trace that are refused, and some that are not.
WORDS = [line.split() for line in (
    '--version', '--version x', 'x --version', '--check', '--check --version', '--calls --check', '--calls --calls',
    '--last 0', '--last=-1', '--last=-0', '--last 1000001', '--width 0', '--width=-0', '--width=-1', '--width 16777217',
    '--columns=x', '--columns 0 --columns 0', '--from 0', '--from=-0', '--to 1000000000001', '--to 0', '--warn --warn',
    '--from 3 --to=9 --last 7', '--cells 18 --warn', '--steps 5 --forms', '-h', '--help', '--help --check',
    '--check -x',
    '--last 3 --calls --columns 30 --width 5')]


def script_of(draw):
    """A random script, whose calls nest and are sometimes not closed."""
    def text(depth):
        if depth and draw.random() < 0.6:
            arguments = b','.join(text(depth - 1) for _ in range(draw.randint(0, 4)))
            mark = draw.choice((b'#(', b'#(', b'##('))
            return mark + draw.choice(FUNCTIONS) + b',' + arguments + b')' * draw.choice((1, 1, 1, 1, 1, 1, 1, 0, 2))
        return draw.choice((b'', b'x', b'12', b'-3', b'(a,b)', b'((', b'))', b"'", b'\t\n', b'\xff', b'abcabc', *NAMES))
    return b''.join(text(draw.randint(1, 5)) + draw.choice((b"'", b"'\n", b'')) for _ in range(draw.randint(1, 6)))


def words_of(draw):
    """Random words for a trace."""
    words = list(draw.choice(VIEWS))
    for name, numbers in (('cells', (11, 20, 40, 100, 1000)), ('steps', (10, 50, 300)), ('last', (1, 3, 20)),
                          ('from', (1, 9, 30)), ('to', (9, 40)), ('width', (0, 1, 8)), ('columns', (1, 12, 40))):
        if draw.random() < 0.3:
            words += [f'--{name}', str(draw.choice(numbers))]
    return words if '--steps' in words else [*words, '--steps', '2000']


def from_folder(*words):
    """A way to run a program whose input can't be read."""
    def ended(program):
        folder = os.open(tempfile.gettempdir(), os.O_RDONLY)
        done = run('sh', b'', '-c', f'exec "$@" <&{folder}', 'sh', program, *words, pass_fds=[folder])
        os.close(folder)
        return done
    return ended


DEVICES = {
    'a full output': lambda program: into_full(program, script=HELLO),
    'a pipe that nobody reads': lambda program: into_closed_pipe(program, script=HELLO),
    'no output': lambda program: into_nothing(program, script=HELLO),
    'a full output for warnings': lambda program: into_full(program, '--warn', script=b"#(zz)'"),
    'a full output for a version': lambda program: into_full(program, '--version'),
    'a full output for a file': lambda program: into_full(program, '--check', os.path.join(TOP, 'README.md')),
    'a folder': from_folder(),
    'a folder by calls': from_folder('--calls', '--width', '0'),
    'a folder, the last steps': from_folder('--last', '3'),
    'a folder, the last calls': from_folder('--last', '3', '--calls'),
    'a folder, warnings': from_folder('--warn'),
    'no input': lambda program: in_shell(program, '"$1" <&-'),
    'no standard error': lambda program: in_shell(program, '"$1" --check 2>&-'),
    'no device at all': lambda program: in_shell(program, '"$1" <&- >&- 2>&-'),
    'an endless input': lambda program: in_shell(program, '"$1" --cells 100 </dev/zero'),
    'little memory': lambda program: run(program, HELLO, '--cells', '16777216', preexec_fn=lambda: resource.setrlimit(
        resource.RLIMIT_AS, (100000000, 100000000))),
    'files': lambda program: run(program, b'', '--steps', '3000', '--check', *sorted(
        glob.glob(os.path.join(TOP, 'examples', 'broken', '*.trac'))), os.path.join(TOP, 'none\n'), TOP),
}


class TraceInC(unittest.TestCase):
    @classmethod
    def setUpClass(cls):
        make('build/trac_trace')

    def same(self, do):
        self.assertEqual(do(TRACER_IN_C), do(PROVED_TRACER))

    def test_each_row(self):
        for row in rows():
            few = [[], ['--last', '3']] if row.steps <= 2000 else []
            for view in few + VIEWS[1:]:
                words = [*view, '--cells', str(row.cells), '--steps', str(row.allowed)]
                with self.subTest(row=row, view=view):
                    self.same(lambda program: run(program, row.script, *words))

    def test_each_example_and_exercise(self):
        scripts = glob.glob(os.path.join(TOP, 'examples', '**', '*.trac'), recursive=True)
        self.assertGreater(len(scripts), 40)
        for name in scripts:
            with open(name, 'rb') as file:
                script = file.read()
            for words in (['--calls', '--steps', '20000'], ['--forms', '--last', '5'], ['--warn', '--steps', '100000'],
                          ['--steps', '3000', '--columns', '79']):
                with self.subTest(script=os.path.basename(name), words=words):
                    self.same(lambda program: run(program, script, *words))

    def test_random_scripts(self):
        def differ(seed):
            draw = random.Random(seed)
            script, words = script_of(draw), words_of(draw)
            found = [run(program, script, *words) for program in (TRACER_IN_C, PROVED_TRACER)]
            return found[0] != found[1] and (script, words, *found)
        with ThreadPoolExecutor() as pool:
            self.assertEqual([found for found in pool.map(differ, range(COUNT)) if found], [])

    def test_each_device(self):
        for name, do in DEVICES.items():
            with self.subTest(device=name):
                self.same(do)

    def test_each_command_line(self):
        for words in LINES + WORDS:
            with self.subTest(words=words):
                self.same(lambda program: run(program, HELLO, *words))


if __name__ == '__main__':
    unittest.main()
