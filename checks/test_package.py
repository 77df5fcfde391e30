"""The Debian packages: lintian reports nothing, the programs run where a package is unpacked, and a program can be
built with the development library."""
import os
import pathlib
import subprocess
import tempfile
import time
import unittest

from test_terminal import has_libedit
from trac import TERMINAL, TOP, make

with open(os.path.join(TOP, 'VERSION'), encoding='utf-8') as whole:
    VERSION = whole.read().strip()
LIBRARY = 'libtrac' + VERSION.rpartition('.')[0]
NAMES = ('trac-t64', LIBRARY, 'libtrac-dev')


def first_line(*words):
    """What a tool of the system answers."""
    return subprocess.run(words, capture_output=True, text=True, check=True).stdout.strip()


class Package(unittest.TestCase):
    @classmethod
    def setUpClass(cls):
        make('package')
        kind = first_line('dpkg', '--print-architecture')
        cls.files = {name: os.path.join(TOP, 'dist', f'{name}_{VERSION}-1_{kind}.deb') for name in NAMES}

    def test_lintian_is_content(self):
        for file in self.files.values():
            done = subprocess.run(['lintian', '--fail-on', 'error,warning', file], capture_output=True, text=True)
            self.assertEqual((done.returncode, done.stdout), (0, ''), done.stdout)

    def test_what_they_hold_works(self):
        with tempfile.TemporaryDirectory() as room:
            for file in self.files.values():
                subprocess.run(['dpkg-deb', '-x', file, room], check=True)
            done = subprocess.run([os.path.join(room, 'usr/bin/trac')], cwd='/', input=b"#(ps,hello)'",
                                  capture_output=True, check=True)
            self.assertEqual(done.stdout, b'hello')
            done = subprocess.run([os.path.join(room, 'usr/bin/trac_terminal')], cwd='/', input=b"#(ps,hello)'",
                                  capture_output=True, check=True)
            self.assertEqual(done.stdout, b'hello\n')
            named = r'libc6 \(>= [0-9.]+\)' + (r', libedit2 \(>= [0-9.-]+\)' if has_libedit(TERMINAL) else '')
            self.assertRegex(first_line('dpkg-deb', '-f', self.files['trac-t64'], 'Depends'), f'^{named}$')
            self.assertRegex(first_line('dpkg-deb', '-f', self.files[LIBRARY], 'Depends'), r'^libc6 \(>= [0-9.]+\)$')
            place = first_line('gcc', '-print-multiarch')
            library = os.path.join(room, 'usr/lib', place)
            program = os.path.join(room, 'embedding')
            subprocess.run(['gcc', '-I', os.path.join(room, 'usr/include'), '-o', program,
                            os.path.join(TOP, 'examples/embedding_c/embedding.c'), '-L', library, '-ltrac'], check=True)
            for env in ({'LD_LIBRARY_PATH': library},):
                subprocess.run([program], env=env, capture_output=True, check=True)

    def test_they_are_the_same_twice(self):
        """At another time and in another zone of time; the archive for Python and the printed page too."""
        made = [os.path.join('dist', name) for name in (f'trac_t64-{VERSION}.tar.gz', 'trac.pdf')]
        files = [*self.files.values(), *(os.path.join(TOP, name) for name in made)]
        for file in files[len(NAMES):]:
            # one of an earlier commit has the time of that
            pathlib.Path(file).unlink(missing_ok=True)
        make(*made)
        before = [first_line('sha256sum', file) for file in files]
        for file in files:
            os.remove(file)
        time.sleep(1.1)
        subprocess.run(['make', '-s', 'package', *made], cwd=TOP, check=True, capture_output=True,
                       env={**os.environ, 'TZ': 'Asia/Tokyo'})
        self.assertEqual([first_line('sha256sum', file) for file in files], before)

    def test_their_version_is_that_of_the_file(self):
        for name, file in self.files.items():
            told = subprocess.run(['dpkg-deb', '-f', file, 'Package', 'Version'], capture_output=True, text=True,
                                  check=True).stdout
            self.assertEqual(told, f'Package: {name}\nVersion: {VERSION}-1\n')


if __name__ == '__main__':
    unittest.main()
