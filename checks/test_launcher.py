"""The launcher, in a temporary copy: what it builds and runs, what it reports, and that it needs only a C compiler."""
import os
import pty
import re
import shutil
import subprocess
import tempfile
import time
import unittest

from trac import LAUNCHER, TOP

HELLO = b"#(ps,hello)'"
SOURCE = os.path.join('crates', 'trac_core', 'src', 'lib.rt')
PROVED = os.path.join('crates', 'trac_cli', 'out', 'trac_cli')
BUILT = os.path.join('build', 'trac')
FILES = 'trac', 'trac_trace', 'trac_terminal', 'Makefile', 'VERSION', 'CHANGELOG.md', 'crates.txt'
# Of each crate some sources are enough: the launcher looks only at their times and their checksum.
SOURCES = '/src/lib.rt', '/src/main.rt', '/specs/Lists.antt'
UNITS = 4
ENGINE = os.path.join('hosts', 'c', 'trac_engine.c')
# A compiler that records its arguments, and writes a program that prints its own name.
COMPILER = """#!/bin/sh
echo "$0 $*" >>'{calls}'
while [ "$1" != -o ]; do shift; done
printf '#!/bin/sh\\necho "C: $*"; exit 3\\n' >"$2"
chmod +x "$2"
"""
CHANGED = 'trac: the sources changed, and this is the engine as it was; make prove proves it\n'
CHANGED_OF_MAKE = '{}: the sources changed, and this is the engine as it was; make generate makes it anew\n'
# What a run by a user gets who may write nothing.
NOBODY = 65534
AS_NOBODY = {'user': NOBODY, 'group': NOBODY} if os.getuid() == 0 else {}
# The commands on the path of a machine with only a C compiler, besides the compiler.
PLAIN = ['sh', 'cat', 'cp', 'cut', 'dirname', 'ls', 'mkdir', 'mv', 'printf', 'readlink', 'rm', 'sha256sum', 'sort',
         'touch']
COMPILERS = (['as', 'ld', 'gcc', 'cc'], ['tcc'])


def tracked():
    """The files of the repository, unchanged."""
    done = subprocess.run(['git', 'ls-files', '-z'], cwd=TOP, capture_output=True, text=True, check=True)
    return [name for name in done.stdout.split('\0') if name and os.path.lexists(os.path.join(TOP, name))]


class Launcher(unittest.TestCase):
    def setUp(self):
        # with blanks in its name, which try the launcher's quotes
        self.folder = tempfile.mkdtemp(prefix='a b ')
        self.addCleanup(shutil.rmtree, self.folder)
        os.chmod(self.folder, 0o755)
        self.top, self.tools, self.calls = (os.path.join(self.folder, name) for name in ('top', 'tools', 'calls'))
        os.mkdir(self.tools)
        for name in tracked():
            if name.startswith('hosts/c/') or name in FILES or name.startswith('crates/') and name.endswith(SOURCES):
                os.makedirs(os.path.dirname(os.path.join(self.top, name)), exist_ok=True)
                shutil.copy2(os.path.join(TOP, name), os.path.join(self.top, name), follow_symlinks=False)
        self.tool('cc', COMPILER.format(calls=self.calls))
        self.note_sources()

    def note_sources(self):
        """Puts the checksum of the sources into the head of the engine, whatever it was made from."""
        checksum = subprocess.run([os.path.join(self.top, 'hosts', 'c', 'generate'), '--sources'], check=True,
                                  capture_output=True, text=True).stdout
        path = os.path.join(self.top, ENGINE)
        with open(path, encoding='utf-8') as file:
            text = re.sub(r'(?<= \* Sources: ).*\n', checksum, file.read(), count=1)
        with open(path, 'w', encoding='utf-8') as file:
            file.write(text)

    def tool(self, name, text):
        path = os.path.join(self.tools, name)
        with open(path, 'w', encoding='utf-8') as file:
            file.write(text)
        os.chmod(path, 0o755)

    def put(self, name, text=''):
        """A program that prints its own name, newer than all sources."""
        path = os.path.join(self.top, name)
        os.makedirs(os.path.dirname(path), exist_ok=True)
        with open(path, 'w', encoding='utf-8') as file:
            file.write(f'#!/bin/sh\n{text}\n')
        os.chmod(path, 0o755)
        self.date(name, 1)

    def date(self, name, seconds):
        when = time.time() + seconds
        os.utime(os.path.join(self.top, name), (when, when))

    def edit(self, name):
        with open(os.path.join(self.top, name), 'a', encoding='utf-8') as file:
            file.write('\n')
        self.date(name, 5)

    def environment(self, path=None, **more):
        """No compiler is named, and the stand-in for one is found first."""
        kept = {name: value for name, value in os.environ.items() if name != 'CC'}
        return {**kept, 'PATH': path or self.tools + ':' + os.environ['PATH'], **more}

    def start(self, name='trac', path=None, **more):
        environment = self.environment(path, **more.pop('env', {}))
        return subprocess.Popen([os.path.join(self.top, name), '--cells', '18'], text=True,
                                stdin=subprocess.DEVNULL, stdout=subprocess.PIPE, stderr=subprocess.PIPE,
                                env=environment, **more)

    def ran(self, *names, **more):
        started = self.start(*names, **more)
        output, lines = started.communicate(timeout=60)
        return output, lines, started.returncode

    def test_a_stack_that_is_too_small_for_the_proved_program(self):
        self.put(PROVED, 'echo proved')
        launcher = os.path.join(self.top, 'trac')
        for kilobytes, wanted in ((24, f'trac: the proved program needs 64 KiB of stack, and has 24; '
                                       f'ulimit -s 64 gives it them\n'), (64, 'proved\n'), ('unlimited', 'proved\n')):
            done = subprocess.run(['sh', '-c', f'ulimit -s {kilobytes} && exec "$0" --cells 18', launcher], text=True,
                                  stdin=subprocess.DEVNULL, stdout=subprocess.PIPE, stderr=subprocess.STDOUT,
                                  env=self.environment(), check=False, timeout=60)
            self.assertEqual((done.stdout, done.returncode), (wanted, 0 if wanted == 'proved\n' else 70))

    def compiled(self):
        """How often the program was built, each time with all its units."""
        if not os.path.exists(self.calls):
            return 0
        with open(self.calls, encoding='utf-8') as file:
            lines = file.readlines()
        count = sum('hosts/c/trac.c ' in line for line in lines)
        self.assertEqual(len(lines), count * (UNITS + 1))
        return count

    def put_old_proved(self):
        """A proved program that is older than the sources."""
        self.put(PROVED, 'echo old')
        self.date(PROVED, -10 ** 9)

    def test_it_builds_the_program_in_c_once(self):
        for _ in range(3):
            self.assertEqual(self.ran(), ('C: --cells 18\n', '', 3))
        self.assertEqual(self.compiled(), 1)
        self.assertEqual(sorted(os.listdir(os.path.join(self.top, 'build'))), ['trac', 'units'])
        self.assertEqual(sorted(os.listdir(os.path.join(self.top, 'build', 'units'))),
                         [f'{unit}.o' for unit in range(1, UNITS + 1)])

    def test_an_empty_program_is_none(self):
        """Lost power could leave one, which the shell would run as a script of no lines."""
        self.ran()
        os.truncate(os.path.join(self.top, BUILT), 0)
        self.assertEqual(self.ran(), ('C: --cells 18\n', '', 3))
        self.assertEqual(self.compiled(), 2)

    def test_make_builds_nothing_again(self):
        self.ran()
        done = subprocess.run(['make', '-q', BUILT], cwd=self.top, capture_output=True, text=True, check=False)
        self.assertEqual(done.returncode, 0, done.stdout + done.stderr)

    def test_what_it_costs(self):
        """It starts no other program than the one that it runs."""
        self.ran()
        log = os.path.join(self.folder, 'log')
        subprocess.run(['strace', '-f', '-qq', '-e', 'trace=execve', '-o', log, os.path.join(self.top, 'trac')],
                       stdin=subprocess.DEVNULL, capture_output=True, env=self.environment(), check=False)
        with open(log, encoding='utf-8') as file:
            started = re.findall(r'execve\("(.*?)"', file.read())
        self.assertEqual(started, [os.path.join(self.top, 'trac'), os.path.join(self.top, BUILT)])

    def test_what_the_program_in_c_is_made_of(self):
        self.ran()
        for at, name in enumerate(('trac.c', 'words.h', 'trac.h', 'trac_engine.c'), 2):
            self.date(os.path.join('hosts', 'c', name), 5 * at)
            self.assertEqual(self.ran(), ('C: --cells 18\n', '', 3))
            self.assertEqual(self.compiled(), at)
            self.date(BUILT, 5 * at + 1)

    def test_a_compiler_that_is_named(self):
        with tempfile.TemporaryDirectory() as other:
            self.tool(os.path.join(other, 'other'), COMPILER.format(calls=self.calls))
            self.assertEqual(self.ran(env={'CC': f'{other}/other -pipe'}), ('C: --cells 18\n', '', 3))
            with open(self.calls, encoding='utf-8') as file:
                self.assertIn(f'{other}/other -pipe -std=c11', file.read())

    def test_no_compiler(self):
        path = os.path.join(self.folder, 'none')
        os.mkdir(path)
        for name in ('sh', 'dirname', 'readlink'):
            os.symlink(shutil.which(name), os.path.join(path, name))
        self.assertEqual(self.ran(path=path), (
            '', 'trac: there is no C compiler; install gcc, or name one by CC\n', 70))

    def test_a_compiler_that_fails(self):
        self.tool('cc', '#!/bin/sh\necho why\nexit 1\n')
        self.assertEqual(self.ran(), ('', 'trac: the program in C could not be built: why\n', 70))
        self.assertEqual(os.listdir(os.path.join(self.top, 'build', 'units')), [])
        self.assertFalse(os.path.exists(os.path.join(self.top, BUILT)))

    def test_a_line_at_a_terminal(self):
        reading, writing = pty.openpty()
        started = subprocess.Popen([os.path.join(self.top, 'trac')],
                                   stdin=subprocess.DEVNULL, stdout=subprocess.DEVNULL,
                                   stderr=writing, env=self.environment())
        self.assertEqual(started.wait(timeout=60), 3)
        os.close(writing)
        self.assertEqual(os.read(reading, 1000).decode(),
                         'trac: building the program in C, once, in some three seconds ..\r\n')
        os.close(reading)

    def test_a_proved_program_that_is_newest(self):
        self.put(PROVED, 'echo "proved: $*"; exit 4')
        self.assertEqual(self.ran(), ('proved: --cells 18\n', '', 4))
        self.assertEqual(self.compiled(), 0)
        for name in (SOURCE, 'crates.txt', os.path.join('crates', 'trac_space', 'specs', 'Lists.antt')):
            before = os.stat(os.path.join(self.top, name)).st_mtime
            self.date(name, 5)
            self.assertEqual(self.ran()[0], 'C: --cells 18\n', name)
            os.utime(os.path.join(self.top, name), (before, before))
        self.assertEqual(self.ran()[0], 'proved: --cells 18\n')

    def test_sources_that_changed(self):
        self.put_old_proved()
        self.assertEqual(self.ran(), ('C: --cells 18\n', '', 3))
        self.date(SOURCE, 5)
        self.assertEqual(self.ran(), ('C: --cells 18\n', '', 3))
        self.edit(SOURCE)
        for _ in range(2):
            self.assertEqual(self.ran(), ('C: --cells 18\n', CHANGED, 3))
        self.assertEqual(self.compiled(), 1)

    def test_what_an_editor_leaves_is_no_source(self):
        self.put_old_proved()
        self.ran()
        for name in ('lib.rt~', '.lib.rt.swp', '#lib.rt#', 'notes.orig'):
            self.put(os.path.join(os.path.dirname(SOURCE), name))
        self.assertEqual(self.ran(), ('C: --cells 18\n', '', 3))

    def test_a_link_to_it(self):
        os.symlink(os.path.join(self.top, 'trac'), os.path.join(self.folder, 'far'))
        os.symlink('far', os.path.join(self.folder, 'near'))
        done = subprocess.run(['near'], executable=os.path.join(self.folder, 'near'), capture_output=True, text=True,
                              env=self.environment(), check=False)
        self.assertEqual((done.stdout, done.returncode), ('C: \n', 3))

    def test_two_at_once(self):
        self.tool('cc', COMPILER.format(calls=self.calls).replace('while', 'sleep 0.3\nwhile', 1))
        for process in [self.start(), self.start()]:
            self.assertEqual(process.communicate(timeout=60), ('C: --cells 18\n', ''))
        self.assertEqual(sorted(os.listdir(os.path.join(self.top, 'build'))), ['trac', 'units'])

    def test_a_user_who_may_not_write(self):
        self.put_old_proved()
        self.ran()
        os.remove(os.path.join(self.top, 'build', 'same'))
        self.keep_from_writing()
        self.assertEqual(self.ran(**AS_NOBODY), ('C: --cells 18\n', '', 3))

    def keep_from_writing(self):
        for folder, _, _ in os.walk(self.top):
            os.chmod(folder, 0o555)
        self.addCleanup(subprocess.run, ['chmod', '-R', 'u+w', self.top], check=True)

    def test_nothing_is_built_where_nobody_may_write(self):
        os.makedirs(os.path.join(self.top, 'build', 'units'))
        self.keep_from_writing()
        for name in ('trac', 'trac_terminal'):
            output, lines, status = self.ran(name, **AS_NOBODY)
            self.assertEqual((output, status), ('', 70))
            self.assertEqual(lines, f'{name}: it is built once, in {self.top}/build, where you may not write; let one '
                                    'who may run it first, or copy the folder\n')
        self.assertEqual(self.compiled(), 0)

    def test_what_make_builds(self):
        """make builds the program if it is missing, and the program gets the words."""
        for name in ('trac_terminal', 'trac_trace'):
            program = os.path.join('build', name)
            self.tool('make', '#!/bin/sh\necho "make $*" >&2\nexit 1\n')
            self.assertEqual(self.ran(name), (
                '', f'make -s -C {self.top} {program}\n{name}: it could not be built\n', 70))
            self.tool('make', f"""#!/bin/sh
mkdir -p '{self.top}/build'
printf '#!/bin/sh\\necho "built: $*"; exit 3\\n' >'{self.top}/{program}'
chmod +x '{self.top}/{program}'
""")
            self.assertEqual(self.ran(name), ('built: --cells 18\n', '', 3))

    def test_make_builds_what_the_launcher_finds_old(self):
        typing = os.path.join('hosts', 'c', 'typing.c')
        for name in ('trac_terminal', 'trac_trace'):
            self.ran(name)
            self.put(os.path.join('build', name), 'echo old')
            self.assertEqual(self.ran(name)[0], 'old\n')
            self.date(typing, 5)
            self.assertEqual(self.ran(name)[::2], ('C: --cells 18\n', 3))
            self.date(typing, -5)

    def test_without_make(self):
        """Without make the targets of make aren't built, and the launcher says so."""
        path = os.path.join(self.folder, 'without make')
        os.mkdir(path)
        for tool in ('sh', 'mkdir', 'readlink', 'find'):
            os.symlink(shutil.which(tool), os.path.join(path, tool))
        self.assertEqual(self.ran('trac_trace', path=path), (
            '', 'trac_trace: it is not built yet, and make, which builds it, is not here\n', 70))

    def test_the_proved_program_that_shows_steps(self):
        """The proved program is run if it is newer than the sources, and otherwise the one in C."""
        proved = os.path.join('crates', 'trac_trace', 'out', 'trac_trace')
        for name in ('trac_trace', 'trac_terminal'):
            self.put(os.path.join('build', name), 'echo in C')
        self.put(proved, 'echo "proved: $*"')
        self.assertEqual(self.ran('trac_trace'), ('proved: --cells 18\n', '', 0))
        self.assertEqual(self.ran('trac_terminal'), ('in C\n', '', 0))
        self.edit('crates.txt')
        self.assertEqual(self.ran('trac_trace'), ('in C\n', '', 0))
        self.edit(SOURCE)
        for name in ('trac_trace', 'trac_terminal'):
            self.assertEqual(self.ran(name), ('in C\n', CHANGED_OF_MAKE.format(name), 0))
        os.remove(os.path.join(self.top, proved))
        for name in ('trac_trace', 'trac_terminal'):
            self.assertEqual(self.ran(name), ('in C\n', '', 0))


class Clone(unittest.TestCase):
    def test_hello_with_a_c_compiler_alone(self):
        """The first output of a clone, with only a compiler, the shell and the most basic tools on the path: no kit, no
        make, no Python."""
        with tempfile.TemporaryDirectory() as top:
            subprocess.run(['cp', '-a', '--parents', '-t', top, *tracked()], cwd=TOP, check=True)
            for compilers in COMPILERS:
                with self.subTest(compilers=compilers):
                    shutil.rmtree(os.path.join(top, 'build'), ignore_errors=True)
                    self.say_hello(top, PLAIN + compilers)

    def say_hello(self, top, plain):
        with tempfile.TemporaryDirectory() as tools:
            for name in plain:
                os.symlink(shutil.which(name), os.path.join(tools, name))
            done = subprocess.run([os.path.join(top, 'trac'), '--report'], input=HELLO, capture_output=True,
                                  env={'PATH': tools}, timeout=120, check=False)
        self.assertEqual(done.stdout, b'hello')
        self.assertIn(b'trac: 29 steps, peak 19 cells\n', done.stderr)
        self.assertEqual(done.returncode, 0)

    def test_the_launcher_passes_words_devices_and_status(self):
        done = subprocess.run([LAUNCHER, '--cells', '18', '--report'], input=HELLO, capture_output=True, check=False)
        self.assertEqual(done.stdout, b'')
        self.assertTrue(done.stderr.decode().endswith(
            'trac: 8 steps, peak 11 cells\ntrac: workspace of 18 cells full at step 9\n'))
        self.assertEqual(done.returncode, 1)

    def test_it_is_short(self):
        with open(LAUNCHER, encoding='utf-8') as lines:
            self.assertLessEqual(len(lines.readlines()), 60)


if __name__ == '__main__':
    unittest.main()
