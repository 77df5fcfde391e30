"""The engine in C, hosts/c/trac_engine.c: each script does there what it does in the program, in one run and in pieces,
also under sanitizers. Which functions it needs from outside, and how much stack it uses."""
import os
import re
import shutil
import subprocess
import tempfile
import unittest

from c_api import HEADERS, SANITIZED, STRICT, Engine, call, compiled
from rows import rows
from trac import TOP

ENGINE = os.path.join(HEADERS, 'trac_engine.c')
PROGRAM_IN_C = os.path.join(HEADERS, 'trac.c')
EXAMPLE = os.path.join(TOP, 'examples', 'embedding_c', 'embedding.c')
AS_CPP = ['-std=c++17', *STRICT[1:], '-x', 'c++']
KINDS = (('gcc', STRICT), ('clang', STRICT), ('gcc', SANITIZED), ('g++', AS_CPP))
# What the engine may leave to the program that it is linked with: what compilers make of the moves of memory.
LEFT_OPEN = {'memcpy', 'memmove', 'memset'}
# Bytes of stack that trac_run needs beside what its caller has.
STACK = 8 * 1024


def built(folder, compiler, flags, *more):
    """The engine, compiled."""
    engine = os.path.join(folder, f'engine{len(os.listdir(folder))}.o')
    open(engine, 'wb').close()
    return engine, subprocess.Popen([compiler, *flags, *more, '-c', '-o', engine, ENGINE])


class CEngine(Engine, unittest.TestCase):
    @classmethod
    def setUpClass(cls):
        cls.folder = tempfile.mkdtemp()
        cls.addClassCleanup(shutil.rmtree, cls.folder)
        engines = [built(cls.folder, *kind) for kind in KINDS]
        if any([maker.wait() for _, maker in engines]):
            raise AssertionError('the engine is not built')
        cls.engines = [engine for engine, _ in engines]
        flags = [flags for _, flags in KINDS[:3]]
        cls.programs = [compiled(cls.folder, kind[0], how, engine)
                        for kind, how, engine in zip(KINDS, flags, cls.engines)]

    def test_what_it_leaves_open(self):
        for engine in (self.engines[0], self.engines[1], self.engines[3]):
            names = subprocess.run(['nm', '--undefined-only', engine], capture_output=True, check=True)
            self.assertLessEqual(set(re.findall(r' U (\S+)', names.stdout.decode())), LEFT_OPEN)

    def test_it_has_no_state(self):
        for engine in (self.engines[0], self.engines[1], self.engines[3]):
            names = subprocess.run(['nm', engine], capture_output=True, check=True)
            self.assertEqual(re.findall(r' [bBcCdDsSgG] (\S+)', names.stdout.decode()), [])

    def test_pointers_that_are_refused(self):
        done = subprocess.run([self.programs[2], 'pointers'], capture_output=True, timeout=60)
        self.assertEqual((done.returncode, done.stderr), (0, b''))

    def test_the_stack_that_it_needs(self):
        for row in rows():
            for program in self.programs[:2]:
                self.assertEqual(call(program, row.script, row.cells, row.allowed, len(row.output), STACK)[0],
                                 row.output, row)

    def test_the_example(self):
        for engine, (compiler, _) in zip(self.engines[:2], KINDS):
            program = compiled(self.folder, compiler, STRICT, engine, EXAMPLE)
            done = subprocess.run([program], capture_output=True, timeout=60, check=True)
            with open(EXAMPLE[:-1] + 'out', 'rb') as wanted:
                self.assertEqual(done.stdout, wanted.read())

    def test_the_program_is_clear_of_warnings(self):
        for compiler, flags in KINDS[:2]:
            subprocess.run([compiler, *flags, '-Wconversion', '-fsyntax-only', PROGRAM_IN_C], check=True)
