"""The crate for Rust, hosts/rust: it is generated from the sources, line by line; cargo builds and tests it offline and
without a warning; its program does what `trac` does."""
import os
import re
import shutil
import subprocess
import sys
import tempfile
import unittest

from rows import rows
from rust_library import BUILT, CRATE, cargo, run_program
from test_program import into_closed_pipe, into_full
from trac import IN_C, TOP, crates_of, make

from erase import Unknown, erase  # after rust_library, which says where it is

SOURCES = os.path.join(TOP, 'crates')
MADE = re.compile(r'// Generated from crates/(\w+)/src/(\S+) by hosts/rust/generate, and never edited\.\n')
# Lines of the Rust that aren't in the source: for what needs std, and, in tests, for making a block.
ADDED = {'#[cfg(feature = "std")]', '#[cfg(test)]', 'pub use crate::stand_in::make_block;'}
# Names of the crate that aren't names of `trac_core`: a field's type, and the test of a block's length.
TABLE = {'Concerned', 'Facts', 'Given', 'Group', 'Traits', 'facts_of', 'function_at', 'function_count'}
MORE = {'Mode', 'BlockTooLong', 'MOST_CELLS', 'load', 'save', *TABLE}


def read(*path):
    with open(os.path.join(*path), encoding='utf-8') as file:
        return file.read()


def generate(top, *words):
    return subprocess.run([os.path.join(top, 'hosts', 'rust', 'generate'), *words], capture_output=True, text=True,
                          check=False)


def generated():
    """The crate and the path of each source in the engine, with its Rust after the first line."""
    engine = crates_of('trac_core')
    for folder, _, files in os.walk(os.path.join(CRATE, 'src')):
        for file in files:
            text = read(folder, file)
            head = MADE.match(text)
            if head and head[1] in engine and not head[2].startswith('tests'):
                yield head[1], head[2], text[head.end():]


def as_in_source(line, crate):
    """A line of the Rust with the paths of its crate in the source; any line without the content of a derive."""
    line = line.replace(f'crate::{crate}::', 'crate::').replace(' core::', ' std::')
    return re.sub(r'#\[derive\(.*\)\]', '#[derive()]', re.sub(r'\bcrate::(trac_\w+)', r'\1', line))


def names_in(text):
    """The names that `pub use` hands on, by which a module is known too."""
    found = set()
    for used in re.findall(r'^pub use \w+(?:::\{([^}]*)\}|::(\w+)| as (\w+));', text, re.MULTILINE):
        found |= {name.strip() for part in used for name in part.split(',') if name.strip()}
    return found | set(re.findall(r'^pub mod (\w+);', text, re.MULTILINE))


class Source(unittest.TestCase):
    def test_it_is_of_these_sources(self):
        done = generate(TOP, '--check')
        self.assertEqual((done.returncode, done.stderr), (0, ''))

    def test_each_line_stands_in_the_source_in_its_order(self):
        lines = 0
        for crate, name, text in generated():
            source = iter([as_in_source(line, crate) for line in read(SOURCES, crate, 'src', name).splitlines()])
            for line in text.splitlines():
                wanted = as_in_source(line, crate)
                # A head without a contract has its semicolon at its own end.
                head = wanted[:-1] if re.match(r' +(fn |\) -> ).*;$', wanted) else wanted
                with self.subTest(crate=crate, name=name, line=line):
                    self.assertTrue(line in ADDED or any(wanted == found or head == found for found in source))
                lines += 1
        self.assertGreater(lines, 9000)

    def test_each_docstring_stays(self):
        for crate, name, text in generated():
            source = read(SOURCES, crate, 'src', name)
            # All but those of ghosts, and of a block that is made.
            of_ghosts = re.compile(r'(?:^ *///.*\n)+(?= *ghost |pub fn make_block)', re.MULTILINE)
            docs = [line.strip() for line in of_ghosts.sub('', source).splitlines() if re.match(r' *//[/!]', line)]
            kept = [line.strip() for line in text.splitlines() if re.match(r' *//[/!]', line)]
            with self.subTest(crate=crate, name=name):
                self.assertEqual(kept, docs)

    def test_it_hands_on_what_the_engine_does(self):
        here = names_in(read(CRATE, 'src', 'lib.rs'))
        self.assertEqual(here - MORE, names_in(read(SOURCES, 'trac_core', 'src', 'lib.rt')))
        self.assertLess(MORE, here)

    def test_the_text_of_an_error_is_the_sources(self):
        texts = re.findall(r'#\[error\(("[^"]*")\)\]', read(SOURCES, 'trac_devices', 'src', 'device.rt'))
        self.assertEqual(re.findall(r'write_str\((".*")\)', read(CRATE, 'src', 'shown.rs')), texts)

    def test_its_version(self):
        self.assertIn(f'\nversion = "{read(TOP, "VERSION").strip()}"\n', read(CRATE, 'Cargo.toml'))

    def test_the_readme_names_what_is_allowed(self):
        allowed = re.findall(r'^#!\[allow\((.*)\)\]', read(CRATE, 'src', 'lib.rs'), re.MULTILINE)
        lints = {lint for line in allowed for lint in line.split(', ')}
        self.assertEqual(lints - set(re.findall(r'`([\w:]+)`', read(CRATE, 'README.md'))), set())
        self.assertGreater(len(lints), 5)


class Changed(unittest.TestCase):
    def setUp(self):
        self.top = tempfile.mkdtemp()
        self.addCleanup(shutil.rmtree, self.top)
        shutil.copy(os.path.join(TOP, 'crates.txt'), self.top)
        shutil.copytree(SOURCES, os.path.join(self.top, 'crates'), ignore=shutil.ignore_patterns('out', 'proofs'))
        shutil.copytree(CRATE, os.path.join(self.top, 'hosts', 'rust'), ignore=shutil.ignore_patterns('target'))

    def edit(self, name, old, new):
        path = os.path.join(self.top, name)
        text = read(path)
        self.assertIn(old, text)
        with open(path, 'w', encoding='utf-8') as file:
            file.write(text.replace(old, new, 1))

    def test_an_edit_of_a_source_or_of_the_rust_shows(self):
        for name, old, new in (('crates/trac_core/src/machine.rt', 'steps: self.steps + 1,', 'steps: self.steps + 2,'),
                               ('hosts/rust/src/trac_values/text.rs', 'pub fn equal', 'pub fn same')):
            with self.subTest(name=name):
                self.assertEqual(generate(self.top, '--check').returncode, 0)
                self.edit(name, old, new)
                done = generate(self.top, '--check')
                self.assertEqual(done.returncode, 1)
                self.assertIn(os.path.basename(name)[:-3] + '.rs', done.stderr)
                self.assertEqual(generate(self.top).returncode, 0)

    def test_a_contract_is_no_edit(self):
        self.edit('crates/trac_core/src/machine.rt', 'ensures { result ≡ self.now.steps }', 'ensures { ⊤ }')
        self.assertEqual(generate(self.top, '--check').returncode, 0)

    def test_a_module_that_goes_and_one_that_comes(self):
        os.rename(os.path.join(self.top, 'crates/trac_values/src/text.rt'),
                  os.path.join(self.top, 'crates/trac_values/src/texts.rt'))
        self.assertIn('trac_values/text.rs trac_values/texts.rs', generate(self.top, '--check').stderr)
        self.assertEqual(generate(self.top).returncode, 0)
        self.assertEqual(generate(self.top, '--check').returncode, 0)

    def test_what_it_does_not_know_leaves_all_as_it_was(self):
        self.edit('crates/trac_core/src/machine.rt', 'ensures { result ≡ self.now.steps }', 'promises { ⊤ }')
        done = generate(self.top)
        self.assertEqual(done.returncode, 1)
        self.assertIn('crates/trac_core/src/machine.rt: "⊤" is left: promises { ⊤ }', done.stderr)
        for name in ('machine.rs', 'mod.rs'):
            self.assertEqual(read(self.top, 'hosts/rust/src/trac_core', name), read(CRATE, 'src/trac_core', name))

    def test_words_that_it_does_not_take(self):
        self.assertEqual(generate(self.top, '--cheek').returncode, 1)


class Erased(unittest.TestCase):
    def test_what_goes(self):
        source = ('//! A file.\n#![tactic(auto)]\nghost use A.{b,\n  c};\n\nuse std::marker::Model;\nuse x::y;\n\n'
                  '/// A type.\n#[derive(Drop)]\npub struct T {\n    len: u8,\n    // it is small\n'
                  '    ghost small: { len < 7 },\n}\n\nimpl Model for T {\n    ghost Value = { T };\n}\n\nimpl T {\n'
                  '    ghost use A.{d};\n\n    /// The length.\n    #[tactic(auto, using(crate::a))]\n'
                  '    fn len(&self) -> u8\n        requires { "{" ≡ \'{\' }\n        // it is small\n'
                  '        ensures small { {} }\n    {\n        // it fits\n        prove!(self.len < 7);\n'
                  '        self.len // {\n    }\n\n    fn of(&self)\n        ensures { ⊤ };\n}\n')
        self.assertEqual(erase(source), (
            '//! A file.\n\nuse x::y;\n\n/// A type.\npub struct T {\n    len: u8,\n}\n\nimpl T {\n'
            '    /// The length.\n    fn len(&self) -> u8\n    {\n        self.len // {\n    }\n\n'
            '    fn of(&self);\n}\n'))

    def test_what_is_an_error(self):
        for source in ('fn f()\n    ensures { x\n{}\n', 'fn f()\n    ensures { x } {}\n', 'ghost fn f() {}\n',
                       'fn f()\n    decreases { n }\n{}\n', 'let a = prove(1); prove_all!(x);\n',
                       '#[lemmas(a)]\nfn f() {}\n', 'fn f() requires { x }\n{}\n', 'let x = y ≡ z;\n',
                       'use Rattle::a;\n', 'ghost use a\n', 'prove!(x);', 'impl Model for T {\n'):
            with self.subTest(source=source), self.assertRaises(Unknown):
                erase(source)


class Crate(unittest.TestCase):
    @classmethod
    def setUpClass(cls):
        make('build/trac')
        cls.folder = tempfile.mkdtemp()
        cls.addClassCleanup(shutil.rmtree, cls.folder)
        # The files of a clone, without built files.
        cls.crate = os.path.join(cls.folder, 'rust')
        shutil.copytree(CRATE, cls.crate, ignore=shutil.ignore_patterns('target', 'Cargo.lock', '__pycache__'))

    def cargo(self, *words, **more):
        done = cargo(*words, folder=self.crate, **more)
        self.assertEqual(done.returncode, 0, done.stdout + done.stderr)
        self.assertNotIn('warning', done.stderr)
        return done.stdout

    def test_its_tests(self):
        counts = re.findall(r'^test result: ok\. (\d+) passed; 0 failed; 0 ignored', self.cargo('test'), re.MULTILINE)
        tests = sum(read(folder, file).count('#[test]') for folder, _, files in os.walk(os.path.join(CRATE, 'src'))
                    for file in files)
        # Those in src, and beside them those by public names and the examples of the documentation.
        self.assertEqual(int(counts[0]), tests)
        self.assertGreater(tests, 85)
        self.assertGreater(min(map(int, counts[-1:])), 1)

    def test_no_warning(self):
        for words in (['--all-targets'], ['--no-default-features']):
            with self.subTest(words=words):
                self.cargo('clippy', *words, '--', '-D', 'warnings')
        self.cargo('doc')

    def test_the_machines_own_rustc(self):
        path = os.pathsep.join(place for place in os.environ['PATH'].split(os.pathsep)
                               if os.path.realpath(place) != '/usr/bin')
        other = shutil.which('cargo', path=path)
        version = subprocess.run([other, '--version'], capture_output=True, text=True).stdout if other else ''
        least = re.search(r'^rust-version = "(\d+)\.(\d+)"', read(CRATE, 'Cargo.toml'), re.MULTILINE)
        if list(map(int, re.findall(r'\d+', version)[:2])) < list(map(int, least.groups())):
            self.skipTest('the machine has no rustc beside that of Debian, or an older one than the crate takes')
        done = subprocess.run([other, 'build', '--offline', '--all-targets'], cwd=self.crate, capture_output=True,
                              text=True, env={**os.environ, 'CARGO_TARGET_DIR': os.path.join(BUILT, 'other')})
        self.assertEqual(done.returncode, 0, done.stderr)
        self.assertNotIn('warning', done.stderr)

    def test_what_it_stands_on(self):
        tree = self.cargo('tree', '--edges', 'normal', '--prefix', 'none', '--format', '{p}')
        self.assertEqual([line.split()[0] for line in tree.splitlines()], ['trac-t64', 'itoa'])

    def test_the_session(self):
        self.assertEqual(self.cargo('run', '-q', '--example', 'session'),
                         'Hello, Ada!\nHello, Grace!\n<^>#(ps,(Hello, )<1>!(\n))\n')


class Program(unittest.TestCase):
    @classmethod
    def setUpClass(cls):
        make('build/trac')
        cls.program = run_program()

    def same(self, do):
        self.assertEqual(do(self.program), do(IN_C))

    def ran(self, script, *words):
        def do(program):
            done = subprocess.run([program, '--report', *words], input=script, capture_output=True, timeout=60)
            return done.stdout, done.stderr, done.returncode
        self.same(do)

    def test_each_row(self):
        for row in rows():
            with self.subTest(row=row):
                self.ran(row.script, '--cells', str(row.cells), f'--steps={row.allowed}')

    def test_each_case(self):
        done = subprocess.run([sys.executable, os.path.join(TOP, 'conformance', 'run.py'), self.program],
                              capture_output=True, text=True, timeout=600)
        self.assertEqual(done.returncode, 0, done.stdout)
        self.assertGreaterEqual(int(done.stdout.splitlines()[-1].split()[0]), 652)

    def test_devices(self):
        self.same(lambda program: into_full(program, '--report', script=b"#(ps,hello)'"))
        self.same(lambda program: into_closed_pipe(program, '--report', script=b"#(ps,hello)'"))

        def from_folder(program):
            folder = os.open(self.folder, os.O_RDONLY)
            done = subprocess.run([program, '--report'], stdin=folder, capture_output=True, timeout=60)
            os.close(folder)
            return done.stdout, done.stderr, done.returncode
        self.folder = tempfile.mkdtemp()
        self.addCleanup(os.rmdir, self.folder)
        self.same(from_folder)

    def test_options(self):
        def status(program, words):
            return subprocess.run([program, *words], input=b"#(ps,hello)'", capture_output=True, timeout=60).returncode
        for words in ([], ['-h'], ['--cells', '18'], ['--cells', '16777217'], ['--cells', '0'], ['--cells'], ['x'],
                      ['--steps', '1000000000001'], ['--steps', '7'], ['--steps=7', '--steps=8'], ['--report=1'],
                      ['--cells', 'x'], ['--report', '--report']):
            with self.subTest(words=words):
                self.assertEqual(status(self.program, words), status(IN_C, words))


if __name__ == '__main__':
    unittest.main()
