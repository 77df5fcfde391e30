"""The crate for Rust behind trac.h: each script does there what it does in the program, in one run and in pieces, and
what it does in the engine in C. An overflow or a panic would end the program."""
import os
import shutil
import subprocess
import tempfile
import unittest

from c_api import HEADERS, STRICT, Engine, compiled
from rust_library import library, renamed
from trac import TOP, make
from two_engines import TwoEngines

IN_C = os.path.join(HEADERS, 'trac_engine.c')
# What a fuzzer watches to learn which scripts are new.
WATCHED = ['-std=c11', '-O1', '-fsanitize=fuzzer-no-link', '-DTRAC_WITHOUT_CHECK']
folder = engine = None


def setUpModule():
    global folder, engine
    make('build/trac', 'build/libtrac.a')
    folder = tempfile.mkdtemp()
    unittest.addModuleCleanup(shutil.rmtree, folder)
    engine = library(folder)


class RustEngine(Engine, unittest.TestCase):
    @classmethod
    def setUpClass(cls):
        programs = [compiled(folder, compiler, STRICT, engine) for compiler in ('gcc', 'clang')]
        cls.programs = [*programs, programs[0]]


class BesideC(TwoEngines, unittest.TestCase):
    length = 5

    @classmethod
    def setUpClass(cls):
        cls.folder = folder
        cls.first, cls.second = os.path.join(TOP, 'build', 'libtrac.a'), renamed(engine)
        cls.fuzzed = {'FIRST': os.path.join(folder, 'watched.o'), 'SECOND': cls.second}
        subprocess.run(['clang', *WATCHED, '-c', '-o', cls.fuzzed['FIRST'], IN_C], check=True)


if __name__ == '__main__':
    unittest.main()
