"""The two processors in C that docs/PERFORMANCE.md compares with compile without a warning, and on each small job of
bench.py they print what the program prints, in the same number of steps and with the same peak."""
import os
import platform
import subprocess
import sys
import tempfile
import unittest

from trac import PROGRAM, TOP
import targets  # after trac, which says where it is
from bench import compared_jobs, jobs, repeated_jobs

STRICT = ['-std=c11', '-O2', '-Wall', '-Werror']
CELLS, STEPS = '65536', '1000000'


@unittest.skipUnless(platform.machine() == 'x86_64', 'bench/fast.c is for x86-64')
class Processors(unittest.TestCase):
    def test_they_do_what_the_program_does(self):
        small = [*jobs(True), *repeated_jobs(True)]
        for name in ('plain', 'fast'):
            for compiler in ('gcc', 'clang'):
                with self.subTest(name=name, compiler=compiler), tempfile.TemporaryDirectory() as folder:
                    other, source = os.path.join(folder, name), os.path.join(TOP, 'bench', f'{name}.c')
                    subprocess.run([compiler, *STRICT, '-o', other, source], check=True)
                    for job in small:
                        ours = subprocess.run([PROGRAM, '--cells', CELLS, '--steps', STEPS, '--report'],
                                              input=job.script, capture_output=True, check=True)
                        theirs = subprocess.run([other, CELLS, STEPS], input=job.script, capture_output=True,
                                                env={**os.environ, 'REPORT': '1'}, check=True)
                        self.assertEqual(theirs.stdout, job.printed, job.name)
                        self.assertEqual((theirs.stdout, theirs.stderr), (ours.stdout, ours.stderr), job.name)


class Targets(unittest.TestCase):
    def test_each_is_of_a_job(self):
        self.assertLessEqual({*targets.BESIDE_FAST}, {job.name for job in compared_jobs()})

    def test_a_row_has_the_ratio(self):
        self.assertEqual(targets.row('a step', 3, 2.4, ' ns'), ('a step', '3.00 ns', '2.4 ns', '1.25'))

    def test_it_counts_without_the_start(self):
        words = targets.bench.limits(PROGRAM)
        few, many = (targets.over_start(words, b"#(ad,1,2)'" * count) for count in (1, 10))
        self.assertTrue(8 < many / few < 12, (few, many))


class WorstScripts(unittest.TestCase):
    def test_each_makes_its_steps(self):
        done = subprocess.run([sys.executable, os.path.join(TOP, 'bench', 'worst.py'), '--smoke'], capture_output=True,
                              text=True, check=True)
        rows = done.stdout.splitlines()[1:]
        self.assertEqual(len(rows), 26)
        for row in rows:
            self.assertRegex(row, r' +8,000 +-?\d+\.\d\d +-?\d+\.\d\d$')


if __name__ == '__main__':
    unittest.main()
