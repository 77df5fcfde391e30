"""`make page`, `make npm` and `make dist` in a fresh clone without the kit: the page and the package for JavaScript
need only Python, and `make dist` says that the proved programs and the proved library are missing."""
import base64
import gzip
import json
import os
import re
import shutil
import subprocess
import tempfile
import time
import unittest

from test_launcher import tracked
from trac import TOP, make

# The commands on the path of a machine with only Python. The Makefile uses find to see what is newer.
PLAIN = ['sh', 'make', 'find', 'ls', 'cat', 'cp', 'cut', 'date', 'mv', 'mkdir', 'sed', 'sync', 'python3']
# Where no rt is found.
PATH = '/usr/bin:/bin'
ENGINE = re.compile(r'<script[^>]* id="engine"[^>]*>([^<]*)<')


def read(*path):
    with open(os.path.join(*path), 'rb') as file:
        return file.read()


class FreshClone(unittest.TestCase):
    def setUp(self):
        # with blanks in its name, which try the quotes
        folder = tempfile.mkdtemp(prefix='a b ')
        self.addCleanup(shutil.rmtree, folder)
        self.top, self.tools = (os.path.join(folder, name) for name in ('top', 'tools'))
        os.mkdir(self.tools)
        for name in PLAIN:
            os.symlink(shutil.which(name, path=PATH), os.path.join(self.tools, name))
        for name in tracked():
            os.makedirs(os.path.dirname(os.path.join(self.top, name)), exist_ok=True)
            shutil.copy2(os.path.join(TOP, name), os.path.join(self.top, name), follow_symlinks=False)

    def make(self, *words, path):
        return subprocess.run(['make', '-s', *words], cwd=self.top, capture_output=True, text=True, check=False,
                              env={'PATH': path, 'HOME': self.top})

    def test_the_page_needs_python_alone(self):
        begun = time.monotonic()
        done = self.make('page', path=self.tools)
        took = time.monotonic() - begun
        self.assertEqual((done.returncode, done.stdout + done.stderr), (0, ''))
        self.assertLess(took, 2)
        page = read(self.top, 'build', 'trac.html').decode()
        module = gzip.decompress(base64.b64decode(ENGINE.search(page)[1]))
        self.assertEqual(module, read(TOP, 'hosts', 'wasm', 'trac.wasm'))
        self.assertEqual(os.listdir(os.path.join(self.top, 'build')), ['trac.html'])

    def test_the_package_needs_python_alone(self):
        done = self.make('npm', path=self.tools)
        self.assertEqual((done.returncode, done.stdout + done.stderr), (0, ''))
        package = os.path.join(self.top, 'build', 'npm')
        self.assertEqual(read(package, 'trac.wasm'), read(TOP, 'hosts', 'wasm', 'trac.wasm'))
        told = json.loads(read(package, 'package.json'))
        self.assertEqual(told['version'], read(TOP, 'VERSION').decode().strip())
        self.assertEqual(set(os.listdir(package)), {'package.json', *told['files']})

    def test_what_is_handed_out(self):
        # What was compiled of the same sources is taken, since that takes long.
        make('build/trac_terminal', 'build/trac_trace')
        shutil.copytree(os.path.join(TOP, 'build', 'units'), os.path.join(self.top, 'build', 'units'))
        dist = os.path.join(self.top, 'dist')
        os.mkdir(dist)
        for name in ('trac', 'libtrac.a'):
            with open(os.path.join(dist, name), 'w', encoding='utf-8') as file:
                file.write('of an earlier version')
        done = self.make('dist', path=PATH)
        self.assertEqual(done.returncode, 0, done.stderr)
        self.assertIn('dist: trac and libtrac.a are missing', done.stderr)
        files = set(os.listdir(dist))
        version = read(TOP, 'VERSION').decode().strip()
        self.assertEqual(files, {
            'README', 'trac_terminal', 'trac_trace', 'trac.h', 'trac_engine.c', 'trac.c', 'words.h', 'trac.html', 'npm',
            'doc', 'trac.1', 'trac_terminal.1', 'trac_trace.1', 'trac.3', 'trac.7', 'trac.pdf',
            f'trac_t64-{version}.tar.gz'})
        listed = re.findall(r'^([a-z]\S*?)[,/]? ', read(dist, 'README').decode(), re.MULTILINE)
        self.assertGreater(len(listed), 6)
        self.assertEqual([name for name in listed if name not in files], [])


if __name__ == '__main__':
    unittest.main()
