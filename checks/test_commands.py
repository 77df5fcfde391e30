"""Each command that a document shows runs as shown, in a copy of the repository, and ends as the text says. A command
that can't be run here is in NOT_RUN with the reason; a command that is neither run nor listed there fails."""
import glob
import os
import re
import shutil
import subprocess
import unittest
from tempfile import TemporaryDirectory

from test_documents import documents
from trac import IN_C, TOP, TRACER_IN_C

KIT = 'needs the Rattle kit'
SESSION = 'a session at a terminal, which the checks of that program have'
# The programs that are shown but not run here, and why.
NO_PROGRAMS = {'rt': KIT, 'trac_terminal': SESSION, './trac_terminal': SESSION}
# The other commands that are shown but not run, and why.
NOT_RUN = {
    'make install PREFIX=/usr/local': 'writes outside of a temporary folder; test_install.py installs elsewhere',
    'make edits CRATES=trac_core': KIT,
    'LENGTH=7 /usr/bin/python3 -m pytest checks/proved/test_engines.py -k short': KIT,
    '/usr/bin/python3 -m pytest -q checks/test_python*.py': 'takes minutes',
    '/usr/bin/python3 -m pytest -q checks/test_page*.py': 'takes minutes',
    '/usr/bin/python3 -m pytest -q checks/test_npm.py checks/test_module.py': 'make check runs these',
    'jupyter nbconvert --execute --inplace --ExecutePreprocessor.record_timing=False examples/lesson.ipynb':
        'needs the kernel installed; test_python_kernel.py runs the notebook',
    'cc -ffreestanding -nostdlib -Ihosts/c program.c hosts/c/trac_engine.c -lgcc':
        "program.c is the reader's; machines/test_cortex_m.py links such a program",
    'pip install .': 'installs; test_python.py builds the package from a copy',
}
# What the text assumes that the reader has: scripts, and an installed program.
GIVEN = {'script.trac': "#(ps,hello)'", 'yours.trac': "#(ds,A,(#(ps,(To NAME, and long may they live!\n))))#(ss,A,NAME)"
                                                      "#(cl,A,Ada)#(cl,A,Grace)#(cl,A,the typists)'"}
FENCE = re.compile(r'^ *```(\S*)\n(.*?)^ *```$', re.MULTILINE | re.DOTALL)
INDENTED = re.compile(r'(?:^|\n)\n((?:    \S.*\n)(?:    .*\n|\n(?=    ))*)')
TABLE = re.compile(r'^\| To \| Command \|\n\|---\|---\|\n((?:\|.*\n)+)', re.MULTILINE)
NAMED = re.compile(r'`([\w./]+\.(?:c|py|mjs))`[^`]*:\n+\Z')


class Block:
    """The commands that a document shows, in order, each with the lines that are printed, if they are shown."""

    def __init__(self, text):
        self.commands = []
        for line in text.rstrip('\n').split('\n'):
            if line.startswith('$ ') or not text.startswith('$ '):
                self.commands.append([line.removeprefix('$ '), None])
            else:
                self.commands[-1][1] = (self.commands[-1][1] or '') + line + '\n'


def of_fence(text, fence):
    """The commands in a fence, or the file with this name that the reader writes; otherwise None."""
    kind, inner = fence.groups()
    named = NAMED.search(text[:fence.start()])
    if kind != 'sh':
        return (named[1], inner) if named and kind in ('c', 'python', 'js') else None
    block = Block(inner)
    shown = re.match(r'\n+```output\n(.*?)^```$', text[fence.end():], re.MULTILINE | re.DOTALL)
    if shown:
        block.commands[-1][1] = shown[1]
    return block


def of_indented(indented):
    """The commands in indented lines; None if the lines are a script, which begins with a call."""
    inner = re.sub('^    ', '', indented[1], flags=re.MULTILINE)
    return None if inner.startswith('#(') else Block(inner)


def of_table(table):
    """The commands of a table, each in the code of its row."""
    rows = table[1].splitlines()
    return Block('\n'.join(re.fullmatch(r'\|.*\| (?:in [^`]*, )?`([^`]*)` \|', row)[1] for row in rows))


def of_markdown(text):
    """The commands of a page, and the files that it tells the reader to write, in order."""
    plain = FENCE.sub(lambda fence: re.sub('[^\n]', '-', fence[0]), text)
    found = [(fence.start(), of_fence(text, fence)) for fence in FENCE.finditer(text)]
    found += [(indented.start(), of_indented(indented)) for indented in INDENTED.finditer(plain)]
    found += [(table.start(), of_table(table)) for table in TABLE.finditer(text)]
    return [each for _, each in sorted(found, key=lambda pair: pair[0]) if each]


def of_man_page(text):
    examples = re.findall(r'^\.EX\n(\$ .*?)^\.EE', text, re.MULTILINE | re.DOTALL)
    return [Block(example.replace('\\(aq', "'").replace('\\-', '-')) for example in examples]


def pages():
    """What the documents show, each with the page that shows it."""
    for path in sorted(documents() + glob.glob(os.path.join(TOP, 'docs', '*.1'))):
        with open(path, encoding='utf-8') as page:
            text = page.read()
        for each in of_markdown(text) if path.endswith('.md') else of_man_page(text):
            yield os.path.relpath(path, TOP), each


def copied(to):
    """A copy of the repository with the programs in C built and up to date, as a reader has it."""
    listed = subprocess.run(['git', 'ls-files', '-z'], cwd=TOP, capture_output=True, text=True, check=True).stdout
    for name in filter(None, listed.split('\0')):
        if os.path.lexists(os.path.join(TOP, name)):
            os.makedirs(os.path.dirname(os.path.join(to, name)), exist_ok=True)
            shutil.copy2(os.path.join(TOP, name), os.path.join(to, name), follow_symlinks=False)
    os.makedirs(os.path.join(to, 'build'))
    os.makedirs(os.path.join(to, 'bin'))
    for name, program in (('trac', IN_C), ('trac_trace', TRACER_IN_C)):
        shutil.copy2(program, os.path.join(to, 'build', name))
        os.symlink(f'../build/{name}', os.path.join(to, 'bin', name))
    for name, text in {**GIVEN, 'build/same': ''}.items():
        put(to, name, text)


def put(to, name, text):
    with open(os.path.join(to, name), 'w', encoding='utf-8') as file:
        file.write(text)


def is_run(command):
    programs = set(re.findall(r'(?:^|[|&]\s*)([^\s|&]+)', command))
    return command not in NOT_RUN and not programs & set(NO_PROGRAMS)


class Commands(unittest.TestCase):
    def do(self, command, shown, place):
        path = os.pathsep.join([os.path.join(place, 'bin'), '/usr/bin', os.environ['PATH']])
        done = subprocess.run(command, shell=True, cwd=place, env={**os.environ, 'PATH': path}, capture_output=True,
                              text=True, timeout=300, stdin=subprocess.DEVNULL, check=False)
        told = done.stdout + ('\n' if done.stdout and not done.stdout.endswith('\n') else '') + done.stderr
        if shown is not None:
            self.assertEqual(told, shown)
        # The tracer says on standard output how a run ended, and what is suspicious.
        if shown is None or not done.stderr:
            if 'trac_trace' in command:
                self.assertIn(done.returncode, (0, 1, 3, 7), told)
            else:
                self.assertEqual(done.returncode, 0, told)

    def follow(self, each, place):
        """Does what a page shows: writes a file, or runs commands."""
        if isinstance(each, tuple):
            put(place, *each)
            return
        for command, printed in each.commands:
            if is_run(command):
                with self.subTest(command=command):
                    self.do(command, printed, place)

    def test_each_command_of_each_page(self):
        with TemporaryDirectory() as place:
            copied(place)
            for name, each in pages():
                with self.subTest(page=name):
                    self.follow(each, place)

    def test_what_is_not_run_is_shown(self):
        shown = {command for _, each in pages() if isinstance(each, Block) for command, _ in each.commands}
        self.assertLessEqual(set(NOT_RUN), shown)

    def test_a_command_that_ends_otherwise_fails(self):
        wrong = ('    ./trac --sells 18 < examples/hanoi.trac\n', "    $ printf 'abc' | ./trac\n    abd\n",
                 '```sh\nnosuch --help\n```\n', '    ./trac_trace --sells 18 < examples/hanoi.trac\n')
        with TemporaryDirectory() as place:
            copied(place)
            for text in wrong:
                [block] = of_markdown('A page.\n\n' + text)
                with self.subTest(text=text), self.assertRaises(AssertionError):
                    self.do(*block.commands[0], place)
