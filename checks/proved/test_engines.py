"""The proved library in one program with each of the other engines: the engine in C and the crate for Rust."""
import os
import shutil
import subprocess
import tempfile
import unittest

from rust_library import library, renamed
from trac import TOP, make
from two_engines import CHECKS, TwoEngines

LIBRARY = os.path.join(TOP, 'dist', 'libtrac.a')


class BesideTheProved(TwoEngines):
    @classmethod
    def setUpClass(cls):
        make('dist/libtrac.a')
        cls.first, cls.folder = LIBRARY, tempfile.mkdtemp()
        cls.addClassCleanup(shutil.rmtree, cls.folder)


class InC(BesideTheProved, unittest.TestCase):
    @classmethod
    def setUpClass(cls):
        super().setUpClass()
        cls.second = os.path.join(cls.folder, 'in_c.o')
        subprocess.run([os.path.join(CHECKS, 'engines'), 'gcc', cls.second, '-O2'], check=True)


class InRust(BesideTheProved, unittest.TestCase):
    @classmethod
    def setUpClass(cls):
        super().setUpClass()
        cls.second = renamed(library(cls.folder))
        cls.fuzzed = {'SECOND': cls.second}


if __name__ == '__main__':
    unittest.main()
