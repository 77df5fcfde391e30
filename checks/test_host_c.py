"""Calls that the host answers, output in pieces, forms defined from outside, and runs that read and write by functions
of the host, through trac.h over the engine in C, under sanitizers and as C++."""
import os
import shutil
import subprocess
import tempfile
import unittest
from random import Random
from struct import pack

from c_api import HEADERS, SANITIZED, STRICT
from rows import rows
from scripts import Grammar
from trac import TOP

ENGINE = os.path.join(HEADERS, 'trac_engine.c')
HOST, CALLBACKS = (os.path.join(TOP, 'checks', name) for name in ('c_host.c', 'c_callbacks.c'))
AS_CPP = ['-std=c++17', *STRICT[1:], '-x', 'c++']
# An exception of C++ may pass the engine in C by the second of them.
KINDS = {'gcc': SANITIZED, 'clang': [*STRICT, '-fexceptions'], 'g++': AS_CPP}
# Prints of 1,280 characters, in strings of few, which need several pieces where the buffer is small.
LONG = b"#(ds,a,0123456789)'" + b"#(ds,a,#(cl,a)#(cl,a))'" * 7 + b"#(ps,#(cl,a))'#(ss,a,5)'#(pf,a)'"


def framed(script, cells, steps, number):
    """A script as c_callbacks.c reads it."""
    return pack('<IIIQ', len(script), cells, number, steps) + script


def rows_to_run(is_slow):
    """Each row with its cells; where runs are slow, some of those that are short and use all cells."""
    found = [row for row in rows() if not is_slow or row.cells < 500 and row.steps < 1000][::3 if is_slow else 1]
    return [framed(row.script, row.cells, row.allowed, number) for number, row in enumerate(found)] + [
        framed(LONG, 5000, 20000, number) for number in range(10)]


def scripts_to_run(seed, count, is_slow):
    """Random scripts, in random room and with random allowances."""
    grammar, random = Grammar(seed), Random(seed)
    rooms = (1000, 300, 100, 40) if is_slow else (65536, 1000, 300, 100, 40)
    return [framed(grammar.script(), random.choice((*rooms, random.randrange(30))),
                   random.choice((100000, 3000, random.randrange(500))), number) for number in range(count)]


class HostInC(unittest.TestCase):
    @classmethod
    def setUpClass(cls):
        cls.folder = tempfile.mkdtemp()
        cls.addClassCleanup(shutil.rmtree, cls.folder)
        started = [subprocess.Popen([compiler, *flags, '-I', HEADERS, '-c', '-o', cls.engine(compiler), ENGINE])
                   for compiler, flags in KINDS.items()]
        if any([process.wait() for process in started]):
            raise AssertionError('the engine is not built')

    @classmethod
    def engine(cls, compiler):
        return os.path.join(cls.folder, f'{compiler}.o')

    def program(self, driver, compiler, engine=None):
        """A driver over the engine that a compiler made, that of the driver if no other is named."""
        program = os.path.join(self.folder, f'{compiler} {engine} {os.path.basename(driver)}')
        subprocess.run([compiler, *KINDS[compiler], '-I', HEADERS, '-o', program, driver, '-x', 'none',
                        self.engine(engine or compiler)], check=True)
        return program

    def test_the_calls_of_the_host(self):
        for compiler in KINDS:
            with self.subTest(compiler=compiler):
                done = subprocess.run([self.program(HOST, compiler)], capture_output=True, text=True, timeout=60)
                self.assertEqual((done.stdout, done.stderr, done.returncode), ('ok\n', '', 0))

    def test_runs_by_functions_of_the_host(self):
        for compiler, engine, count in (('gcc', 'gcc', 50), ('clang', 'clang', 300), ('g++', 'g++', 100),
                                        ('g++', 'clang', 0)):
            with self.subTest(compiler=compiler, engine=engine):
                is_slow = compiler == 'gcc'
                given = b''.join(rows_to_run(is_slow) + scripts_to_run(66, count, is_slow))
                done = subprocess.run([self.program(CALLBACKS, compiler, engine)], input=given, capture_output=True,
                                      timeout=300)
                self.assertEqual((done.stderr, done.returncode), (b'', 0))
                self.assertGreater(int(done.stdout.split()[0]), 1500)


if __name__ == '__main__':
    unittest.main()
