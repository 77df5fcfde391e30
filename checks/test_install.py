"""make install and make uninstall: what is installed in a folder works from anywhere, without rt and the repository; no
other file is changed; and uninstalling removes what was installed, and nothing else."""
import glob
import os
import re
import shutil
import stat
import subprocess
import tempfile
import unittest

from trac import TOP

# Where no rt is found.
PATH = '/usr/bin:/bin'
DOC = 'share/doc/trac-t64'
with open(os.path.join(TOP, 'VERSION'), encoding='utf-8') as whole:
    VERSION = whole.read().strip()
SHARED = 'libtrac.so.' + VERSION.rpartition('.')[0]
LINK = re.compile(r'\]\(([^)#:\s]+)(?:#[^)]*)?\)')
CMAKE = """cmake_minimum_required(VERSION 3.13)
project(hello C)
find_package(trac REQUIRED)
add_executable(hello hello.c)
target_link_libraries(hello trac::trac)
add_executable(shared hello.c)
target_link_libraries(shared trac::shared)
"""
# What a shell, sed or pkg-config could take for its own.
ODD = """a b,c&d"e'f\\g;h"""
# A compiler that writes a whole file or, if asked, half a file, and then kills the shell that called it.
COMPILER = """#!/bin/sh
while [ "$1" != -o ]; do shift; done
if [ -e '{killed}' ]; then printf ha >"$2" && kill -9 $PPID; else printf half >"$2"; fi
"""
HELLO = """#include <stdio.h>
#include <trac.h>
int main(void) {
    static trac_cell block[19];
    char printed[5];
    trac_report report = trac_run(block, 19, 29, "#(ps,hello)'", 12, printed, 5);
    fwrite(printed, 1, report.written, stdout);
    return 0;
}
"""


def make(*words, **more):
    """make in the repository."""
    env = {'PATH': PATH, 'HOME': os.environ.get('HOME', '/'), **more.pop('env', {})}
    return subprocess.run(['make', '-s', *words], cwd=TOP, capture_output=True, text=True, env=env, **more)


def files(folder):
    return {os.path.relpath(os.path.join(at, name), folder)
            for at, _, names in os.walk(folder) for name in names}


class Install(unittest.TestCase):
    def setUp(self):
        room = tempfile.TemporaryDirectory()
        self.addCleanup(room.cleanup)
        self.room = room.name
        self.there = os.path.join(self.room, 'there')

    def install(self, *words, **more):
        return make('install', f'PREFIX={self.there}', *words, **more)

    def uninstall(self):
        return make('uninstall', f'PREFIX={self.there}')

    def write(self, name, text=''):
        path = os.path.join(self.there, name)
        os.makedirs(os.path.dirname(path), exist_ok=True)
        with open(path, 'w', encoding='utf-8') as file:
            file.write(text)
        return path

    def test_what_is_there(self):
        done = self.install()
        self.assertEqual(done.returncode, 0, done.stderr)
        ran = subprocess.run([os.path.join(self.there, 'bin', 'trac')], cwd='/', input="#(ps,hello)'",
                             capture_output=True, text=True, env={'PATH': PATH}, check=True)
        self.assertEqual((ran.stdout, ran.stderr), ('hello', ''))
        ran = subprocess.run([os.path.join(self.there, 'bin', 'trac_terminal')], cwd='/', input="#(ps,hello)'",
                             capture_output=True, text=True, env={'PATH': PATH}, check=True)
        self.assertEqual((ran.stdout, ran.stderr), ('hello\n', ''))
        ran = subprocess.run([os.path.join(self.there, 'bin', 'trac_trace'), '--calls'], cwd='/', input="#(ps,hello)'",
                             capture_output=True, text=True, env={'PATH': PATH}, check=True)
        self.assertIn('#(ps<,>hello) prints hello\n', ran.stdout)
        there = files(self.there)
        self.assertLessEqual({'include/trac.h', 'lib/libtrac.a', 'lib/libtrac.so', f'lib/{SHARED}',
                              'lib/cmake/trac/trac-config-version.cmake',
                              'share/man/man1/trac.1', 'share/man/man1/trac_terminal.1',
                              'share/man/man1/trac_trace.1',
                              'share/man/man3/trac.3', 'share/man/man7/trac.7',
                              f'{DOC}/docs/LANGUAGE.md', f'{DOC}/examples/hanoi.trac',
                              'share/zsh/site-functions/_trac'}, there)
        for program in ('trac', 'trac_trace', 'trac_terminal'):
            for name in (f'bash-completion/completions/{program}', f'fish/vendor_completions.d/{program}.fish'):
                self.assertTrue(os.path.isfile(os.path.join(self.there, 'share', name)), name)
        solved = subprocess.run(['sh', os.path.join(self.there, DOC, 'examples/exercises/check'), '1',
                                 os.path.join(TOP, 'examples/exercises/01-hello.trac')], capture_output=True, text=True,
                                env={'PATH': os.path.join(self.there, 'bin') + ':' + PATH}, check=True)
        self.assertEqual(solved.stdout, 'right\n')
        for page in glob.glob(os.path.join(self.there, 'share/man/man1/*.1')):
            self.assertIn('bin/' + os.path.basename(page)[:-2], there)

    def test_links_of_the_documents(self):
        self.install()
        seen = 0
        for page in glob.glob(os.path.join(self.there, DOC, '**', '*.md'), recursive=True):
            with open(page, encoding='utf-8') as file:
                for link in LINK.findall(file.read()):
                    seen += 1
                    self.assertTrue(os.path.exists(os.path.join(os.path.dirname(page), link)), (page, link))
        self.assertGreater(seen, 40)

    def test_programs_are_built_with_it(self):
        self.install()
        env = {'PATH': PATH, 'PKG_CONFIG_PATH': os.path.join(self.there, 'lib/pkgconfig'),
               'LD_LIBRARY_PATH': os.path.join(self.there, 'lib')}
        source = self.write('hello.c', HELLO)

        def said(*words):
            return subprocess.run(words, cwd=self.there, env=env, capture_output=True, text=True, check=True).stdout

        said('sh', '-c', f'cc -o hello {source} $(pkg-config --cflags --libs trac)')
        self.assertEqual(said('./hello'), 'hello')
        self.write('CMakeLists.txt', CMAKE)
        said('cmake', '-B', 'made', f'-DCMAKE_PREFIX_PATH={self.there}')
        said('cmake', '--build', 'made')
        self.assertEqual((said('made/hello'), said('made/shared')), ('hello', 'hello'))
        self.find_versions(env)
        example = os.path.join(self.there, DOC, 'examples/embedding_c')
        said('make', '-s', '-C', example)
        with open(os.path.join(example, 'embedding.out'), encoding='utf-8') as shown:
            self.assertEqual(said(os.path.join(example, 'embedding')), shown.read())

    def find_versions(self, env):
        """CMake finds this version and an older patch of it, and no other, as trac_abi answers."""
        major, minor, patch = map(int, VERSION.split('.'))
        for wanted, is_found in ((f'{major}.{minor}', True), (VERSION, True), (f'{VERSION} EXACT', True),
                                 (f'{major}.{minor}.{patch + 1}', False), (f'{major}.{minor - 1}', False),
                                 (f'{major}.{minor + 1}', False), (f'{major + 1}.{minor}', False)):
            self.write('CMakeLists.txt', CMAKE.replace('find_package(trac', f'find_package(trac {wanted}'))
            done = subprocess.run(['cmake', '-B', 'versions', f'-DCMAKE_PREFIX_PATH={self.there}'], cwd=self.there,
                                  env=env, capture_output=True, text=True, check=False)
            self.assertEqual(done.returncode == 0, is_found, wanted + done.stderr)

    def test_it_takes_away_what_it_put_there(self):
        mine = self.write('bin/mine', 'mine')
        self.assertEqual(self.install().returncode, 0)
        self.assertEqual(self.install().returncode, 0)
        self.assertEqual(self.uninstall().returncode, 0)
        self.assertEqual(files(self.there), {'bin/mine'})
        self.assertEqual(os.listdir(self.there), ['bin'])
        os.remove(mine)
        done = self.uninstall()
        self.assertEqual((done.returncode != 0, 'nothing that was installed' in done.stderr), (True, True))

    def test_a_foreign_file_is_kept_unless_asked(self):
        mine = self.write('bin/trac', 'mine')
        done = self.install()
        self.assertNotEqual(done.returncode, 0)
        self.assertIn('FORCE=yes', done.stderr)
        self.assertEqual(files(self.there), {'bin/trac'})
        with open(mine, encoding='utf-8') as file:
            self.assertEqual(file.read(), 'mine')
        self.assertEqual(self.install(env={'FORCE': 'yes'}).returncode, 0)

    def test_a_link_is_replaced_and_never_written_through(self):
        outside = self.write('../outside', 'mine')
        os.makedirs(os.path.join(self.there, 'bin'))
        os.symlink('../../outside', os.path.join(self.there, 'bin/trac'))
        self.assertIn("isn't from an installation", self.install().stderr)
        self.assertEqual(self.install(env={'FORCE': 'yes'}).returncode, 0)
        self.assertFalse(os.path.islink(os.path.join(self.there, 'bin/trac')))
        with open(outside, encoding='utf-8') as file:
            self.assertEqual(file.read(), 'mine')

    def test_a_foreign_link_that_leads_nowhere_is_kept(self):
        os.makedirs(os.path.join(self.there, 'lib'))
        os.symlink('nowhere', os.path.join(self.there, 'lib/libtrac.a'))
        done = self.install()
        self.assertNotEqual(done.returncode, 0)
        self.assertIn("libtrac.a isn't from an installation; FORCE=yes overwrites it", done.stderr)
        self.assertEqual(files(self.there), {'lib/libtrac.a'})

    def test_a_folder_in_the_place_of_a_file(self):
        self.write('bin/trac/inside')
        done = self.install(env={'FORCE': 'yes'})
        self.assertNotEqual(done.returncode, 0)
        self.assertIn('bin/trac is a folder', done.stderr)
        self.assertEqual(files(self.there), {'bin/trac/inside'})

    def test_a_file_that_was_changed_is_told_and_kept(self):
        self.install()
        changed = self.write('include/trac.h', 'mine')
        for done in (self.install(), self.install(), self.uninstall()):
            self.assertEqual(done.returncode, 0)
            self.assertIn('include/trac.h was changed since it was installed, and stays', done.stderr)
            self.assertEqual(done.stderr.count('was changed'), 1)
            with open(changed, encoding='utf-8') as file:
                self.assertEqual(file.read(), 'mine')
        self.assertEqual(files(self.there), {'include/trac.h', f'{DOC}/INSTALLED'})
        done = make('uninstall', f'PREFIX={self.there}', env={'FORCE': 'yes'})
        self.assertEqual((done.returncode, os.listdir(self.there)), (0, []))

    def test_a_changed_file_is_overwritten_where_that_is_asked(self):
        self.install()
        changed = self.write('include/trac.h', 'mine')
        self.assertEqual(self.install(env={'FORCE': 'yes'}).returncode, 0)
        with open(changed, encoding='utf-8') as file:
            self.assertNotEqual(file.read(), 'mine')
        self.assertEqual(self.uninstall().returncode, 0)
        self.assertEqual(files(self.there), set())

    def test_folders_that_were_there_stay(self):
        for name in ('lib', 'share/man', 'empty'):
            os.makedirs(os.path.join(self.there, name))
        self.assertEqual(self.install().returncode, 0)
        self.assertEqual(self.install().returncode, 0)
        self.assertEqual(self.uninstall().returncode, 0)
        left = {os.path.relpath(at, self.there) for at, _, _ in os.walk(self.there)}
        self.assertEqual(left, {'.', 'lib', 'share', 'share/man', 'empty'})

    def test_a_list_without_checksums(self):
        """Version 0.10.0 wrote such lists."""
        self.install()
        path = os.path.join(self.there, DOC, 'INSTALLED')
        with open(path, encoding='utf-8') as listed:
            names = [line.split('\t')[0] for line in listed.read().splitlines()]
        with open(path, 'w', encoding='utf-8') as listed:
            listed.write(''.join(f'{name}\n' for name in names if not name.endswith('/')) + 'bin/gone\n')
        self.write('bin/gone')
        self.write('bin/trac', 'of another version')
        done = self.install()
        self.assertEqual((done.returncode, done.stderr.count('was changed')), (0, 0))
        self.assertNotIn('bin/gone', files(self.there))
        self.assertEqual(self.uninstall().returncode, 0)
        self.assertEqual(files(self.there), set())

    def test_any_name_of_the_folder(self):
        there = os.path.join(self.room, ODD)
        done = make('install', f'PREFIX={there}')
        self.assertEqual(done.returncode, 0, done.stderr)
        self.there = self.room
        self.write('hello.c', HELLO)
        os.symlink(os.path.join(there, 'lib'), os.path.join(self.room, 'lib'))
        said = subprocess.run(['sh', '-ec', 'eval "cc -o hello hello.c $(pkg-config --cflags --libs trac)"; ./hello'],
                              cwd=self.room, capture_output=True, text=True, check=True,
                              env={'PATH': PATH, 'PKG_CONFIG_PATH': os.path.join(there, 'lib/pkgconfig'),
                                   'LD_LIBRARY_PATH': os.path.join(self.room, 'lib')})
        self.assertEqual(said.stdout, 'hello')
        self.assertEqual(make('uninstall', f'PREFIX={there}').returncode, 0)
        self.assertEqual(files(there), set())

    def test_no_folder_to_install_to(self):
        given = {'HOME': '/'}
        for words, env in (([], {'HOME': ''}), ([], {}), (['PREFIX=there'], given), (['PREFIX='], given)):
            for target in ('install', 'uninstall'):
                with self.subTest(words=words, env=env, target=target):
                    done = subprocess.run(['make', '-s', target, *words, f'DESTDIR={self.there}'], cwd=TOP, text=True,
                                          capture_output=True, env={'PATH': PATH, **env}, check=False)
                    self.assertNotEqual(done.returncode, 0)
                    self.assertIn('PREFIX', done.stderr)
                    self.assertFalse(os.path.exists(self.there))

    def test_all_may_read_it(self):
        self.addCleanup(os.umask, os.umask(0o077))
        self.assertEqual(self.install().returncode, 0)
        for at, folders, names in os.walk(self.there):
            for name in folders + names:
                mode = stat.S_IMODE(os.stat(os.path.join(at, name)).st_mode)
                runs = name in folders or at.endswith(('/bin', '/lib')) and name == 'trac'
                self.assertEqual(mode | (0 if runs else 0o111), 0o755, os.path.join(at, name))

    def test_what_make_prints(self):
        done = subprocess.run(['make', 'install', f'PREFIX={self.there}'], cwd=TOP, capture_output=True, text=True,
                              env={'PATH': PATH}, check=True)
        self.assertNotIn('directory', done.stdout + done.stderr)

    def test_what_cannot_be_taken_away_is_told_and_stays_listed(self):
        self.install()
        os.remove(os.path.join(self.there, 'bin/trac'))
        self.write('bin/trac/inside')
        done = self.uninstall()
        self.assertNotEqual(done.returncode, 0)
        self.assertIn("bin/trac can't be taken away", done.stderr)
        self.assertEqual(files(self.there), {'bin/trac/inside', f'{DOC}/INSTALLED'})
        with open(os.path.join(self.there, DOC, 'INSTALLED'), encoding='utf-8') as listed:
            self.assertEqual([line.split('\t')[0] for line in listed if not line.endswith('/\n')], ['bin/trac'])

    def test_a_list_that_leads_out_is_refused(self):
        outside = os.path.join(self.room, 'outside')
        self.write('../outside')
        self.write(f'{DOC}/INSTALLED', '../outside\nbin/x/../../../outside\n' + outside + '\n')
        done = self.uninstall()
        self.assertNotEqual(done.returncode, 0)
        self.assertEqual(done.stderr.count('which is no file below'), 3)
        self.assertTrue(os.path.exists(outside))

    def test_after_an_interrupt_all_can_be_taken_away(self):
        self.install()
        with open(os.path.join(self.there, DOC, 'INSTALLED'), encoding='utf-8') as listed:
            names = [line.split('\t')[0] for line in listed if '\t' in line]
        # what an interrupted installation has installed: its list, and the first files
        for name in names[5:]:
            os.remove(os.path.join(self.there, name))
        self.assertEqual(self.uninstall().returncode, 0)
        self.assertEqual(files(self.there), set())

    def test_below_another_root(self):
        done = make('install', 'PREFIX=/usr', f'DESTDIR={self.there}')
        self.assertEqual(done.returncode, 0, done.stderr)
        self.assertIn('usr/bin/trac', files(self.there))
        with open(os.path.join(self.there, 'usr/lib/pkgconfig/trac.pc'), encoding='utf-8') as file:
            self.assertIn('prefix=/usr\n', file.read())


class Make(unittest.TestCase):
    """What make builds, in a copy with a stand-in for the compiler."""

    def setUp(self):
        self.top = tempfile.mkdtemp()
        self.addCleanup(shutil.rmtree, self.top)
        shutil.copytree(os.path.join(TOP, 'hosts', 'c'), os.path.join(self.top, 'hosts', 'c'))
        for name in ('Makefile', 'VERSION', 'crates.txt'):
            shutil.copy(os.path.join(TOP, name), self.top)
        for name in ('crates', 'further-edits'):
            os.mkdir(os.path.join(self.top, name))
        self.killed = os.path.join(self.top, 'killed')
        self.compiler = os.path.join(self.top, 'compiler')
        with open(self.compiler, 'w', encoding='utf-8') as file:
            file.write(COMPILER.format(killed=self.killed))
        os.chmod(self.compiler, 0o755)

    def make(self, *words):
        return subprocess.run(['make', *words], cwd=self.top, capture_output=True, text=True, check=False)

    def test_nothing_takes_what_a_kill_leaves(self):
        for name in ('build/units/1.o', 'build/units/5.o', 'build/trac', 'build/trac_terminal', 'build/trac_trace'):
            with self.subTest(name=name):
                open(self.killed, 'wb').close()
                self.assertNotEqual(self.make(name, f'CC={self.compiler}').returncode, 0)
                self.assertFalse(os.path.exists(os.path.join(self.top, name)))
                os.remove(self.killed)
                done = self.make(name, f'CC={self.compiler}')
                self.assertEqual(done.returncode, 0, done.stderr)
                with open(os.path.join(self.top, name), encoding='utf-8') as file:
                    self.assertEqual(file.read(), 'half')

    def test_help(self):
        """The help says what each target needs, and how long it takes."""
        lines = self.make('-s', 'help').stdout.splitlines()
        self.assertGreater(len(lines), 10)
        for line in lines[:-1]:
            self.assertRegex(line, r'^make( [\w-]+)? .*\([^;)]+; [^;)]+\)')

    def test_no_word_is_taken_for_a_file(self):
        with open(os.path.join(TOP, 'Makefile'), encoding='utf-8') as file:
            text, _, phony = file.read().replace('\\\n', ' ').partition('.PHONY:')
        words = re.findall(r'^([a-z-]+):', text, re.MULTILINE)
        self.assertGreater(len(words), 20)
        self.assertEqual(set(words) - set(phony.split()), set())

    def test_nothing_takes_what_lost_power_leaves(self):
        """What is renamed is on the disk by then: else the name could be there, and nothing in the file."""
        log = os.path.join(self.top, 'log')
        done = subprocess.run(['strace', '-f', '-e', 'trace=fsync,rename,renameat,renameat2', '-o', log,
                               'make', 'build/trac', 'build/trac_terminal', 'build/trac_trace', f'CC={self.compiler}'],
                              cwd=self.top, capture_output=True, text=True, check=False)
        self.assertEqual(done.returncode, 0, done.stderr)
        with open(log, encoding='utf-8') as file:
            calls = re.findall(r'^\d+ +(fsync|rename)\w*\(', file.read(), re.MULTILINE)
        # seven units of the engine and three programs
        self.assertEqual(sorted(os.listdir(os.path.join(self.top, 'build', 'units'))), [f'{n}.o' for n in range(1, 8)])
        self.assertEqual((calls.count('fsync'), calls.count('rename')), (7 + 3, 7 + 3))

    def test_flags_for_the_linker(self):
        lines = self.make('-n', 'all', f'build/{SHARED}', 'LDFLAGS=--of-the-linker').stdout.splitlines()
        for target in ('build/trac.', 'build/trac_terminal.', 'build/trac_trace.', 'build/libtrac.so'):
            linked = [line for line in lines if f'-o {target}' in line]
            self.assertGreater(len(linked), 0)
            for line in linked:
                self.assertIn('--of-the-linker', line)


if __name__ == '__main__':
    unittest.main()
