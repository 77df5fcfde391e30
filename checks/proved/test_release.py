"""What `make dist` makes with the kit."""
import os
import unittest

from trac import PROVED, TOP, make

DIST = os.path.join(TOP, 'dist')


def setUpModule():
    make('dist')


def version():
    with open(os.path.join(TOP, 'VERSION'), encoding='utf-8') as file:
        return file.read().strip()


class Release(unittest.TestCase):
    def test_its_files(self):
        files = set(os.listdir(DIST))
        self.assertLessEqual({'README', 'trac', 'trac_trace', 'trac_terminal', 'trac.h', 'libtrac.a', 'trac_engine.c',
                              'trac.c', 'words.h', 'trac.html', 'npm', 'doc', 'trac.3', 'trac.7', 'trac.pdf'}, files)
        for page in (name for name in files if name.endswith('.1')):
            self.assertIn(page[:-2], files)
        for part in ('docs/LANGUAGE.md', 'docs/EXERCISES.md', 'examples/hanoi.trac'):
            self.assertTrue(os.path.exists(os.path.join(DIST, 'doc', part)), part)

    def test_its_version(self):
        for name in ('trac.h', 'trac.html', 'npm/trac.mjs'):
            with open(os.path.join(DIST, name), encoding='utf-8') as file:
                self.assertIn(version(), file.read(), name)
        with open(os.path.join(TOP, 'CHANGELOG.md'), encoding='utf-8') as file:
            self.assertIn(f'## {version()}', file.read())

    def test_the_program(self):
        with open(PROVED, 'rb') as built, open(os.path.join(DIST, 'trac'), 'rb') as released:
            self.assertEqual(built.read(), released.read())
