"""The program in C on emulated machines of other kinds, with 32 and 64 bits and of either byte order, and compiled with
other options on this machine: it meets the cases of conformance/. Images of forms have the same bytes on each."""
import os
import subprocess
import sys
import tempfile
import unittest

from trac import TOP

HERE = os.path.join(TOP, 'hosts', 'c')
KINDS = {'aarch64': 'aarch64-linux-gnu-gcc', 'arm': 'arm-linux-gnueabihf-gcc', 'ppc': 'powerpc-linux-gnu-gcc',
         's390x': 's390x-linux-gnu-gcc'}
# For RV32 a C library is packaged that knows no system; what it needs of Linux stands in a file beside this one. The
# emulator lends memory at any place.
RISCV32 = ['riscv64-unknown-elf-gcc', '--specs=/usr/lib/picolibc/riscv64-unknown-elf/picolibc.specs', '-O1',
           '-march=rv32imac', '-mabi=ilp32', '-nostartfiles',
           *(f'-Wl,--defsym=__{name}={place}' for name, place in (
               ('flash', '0x10000000'), ('flash_size', '0x1000000'), ('ram', '0x20000000'), ('ram_size', '0x1000000'))),
           os.path.join(os.path.dirname(os.path.abspath(__file__)), 'riscv32.c')]


class Cases(unittest.TestCase):
    def meets_the_cases(self, words, emulator=()):
        """What these words of a compiler make meets the cases, in an emulator if one is given."""
        with tempfile.TemporaryDirectory() as place:
            program = os.path.join(place, 'trac')
            subprocess.run([*words, '-std=c11', '-o', program, os.path.join(HERE, 'trac.c'),
                            os.path.join(HERE, 'trac_engine.c')], check=True)
            done = subprocess.run([sys.executable, os.path.join(TOP, 'conformance', 'run.py'), *emulator, program],
                                  capture_output=True, text=True, timeout=600)
        self.assertEqual((done.returncode, done.stdout.split('cases, ')[-1]), (0, '0 missed\n'), done.stdout[-2000:])


class Emulated(Cases):
    def meets_them_on(self, kind, *flags):
        self.meets_the_cases([KINDS[kind], '-O1', '-static', *flags], [f'qemu-{kind}'])

    def test_aarch64(self):
        self.meets_them_on('aarch64')

    def test_arm(self):
        self.meets_them_on('arm')

    def test_powerpc(self):
        self.meets_them_on('ppc')

    def test_riscv32(self):
        self.meets_the_cases(RISCV32, ['qemu-riscv32'])

    def test_s390x(self):
        self.meets_them_on('s390x')

    def test_compilers_that_do_not_tell_the_order_of_bytes(self):
        self.meets_them_on('s390x', '-U__BYTE_ORDER__')
        self.meets_them_on('aarch64', '-U__BYTE_ORDER__')


class Images(unittest.TestCase):
    def test_they_have_the_same_bytes(self):
        """Those that are worked by hand, and those that a writer of its own makes of random forms; mutated, too."""
        for kind, compiler in KINDS.items():
            with self.subTest(kind=kind), tempfile.TemporaryDirectory() as place:
                program = os.path.join(place, 'images')
                subprocess.run([compiler, '-std=c11', '-O0', '-static', '-I', HERE, '-o', program,
                                os.path.join(TOP, 'checks', 'fuzz', 'images.c')], check=True)
                done = subprocess.run([f'qemu-{kind}', program, '2000', '0'], capture_output=True, text=True,
                                      timeout=600, check=False)
                self.assertEqual((done.stderr, done.returncode), ('', 0))
                self.assertRegex(done.stdout, r'^2000 mutations, \d\d\d taken\n$')


class Optimized(Cases):
    """More and less than by `-O2`, which all other checks of the program in C take."""

    def test_for_size(self):
        self.meets_the_cases(['gcc', '-Os'])

    def test_not_at_all(self):
        self.meets_the_cases(['gcc', '-O0'])

    def test_over_both_files_at_once(self):
        self.meets_the_cases(['gcc', '-O3', '-flto'])


if __name__ == '__main__':
    unittest.main()
