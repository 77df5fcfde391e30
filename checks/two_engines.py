"""Checks of two engines in one program: every short script in every room and with every allowance, and the scripts that
a fuzzer generates in some seconds. LETTERS and LENGTH in the environment say which scripts: with LENGTH=7 all scripts
of seven bytes are run, which takes some minutes on four processors. checks/fuzz/run says how to fuzz for a night."""
import os
import re
import subprocess

from c_api import HEADERS, STRICT
from trac import TOP

CHECKS = os.path.join(TOP, 'checks')
# These letters name functions that define, read, print and halt, or a form.
LETTERS = os.environ.get('LETTERS', 'psrhl psdAl').split()
SECONDS = 10


class TwoEngines:
    """`first` and `second` are objects or libraries; the names of the second begin with c_. `fuzzed` has the same two
    in the form that the fuzzer needs. Scripts have up to `length` bytes."""
    length = 6
    fuzzed = {}

    def test_every_short_script(self):
        program = os.path.join(self.folder, 'exhaustive')
        subprocess.run(['gcc', *STRICT, '-I', HEADERS, '-I', CHECKS, '-o', program,
                        os.path.join(CHECKS, 'exhaustive.c'), self.second, self.first], check=True)
        parts, length = len(os.sched_getaffinity(0)), int(os.environ.get('LENGTH', self.length))
        for letters in LETTERS:
            running = [subprocess.Popen([program, str(length), str(part), str(parts), letters],
                                        stdout=subprocess.PIPE, text=True) for part in range(parts)]
            said = [one.communicate()[0] for one in running]
            with self.subTest(letters=letters):
                self.assertEqual([one.returncode for one in running], [0] * parts, said)
                runs = sum(int(re.search(r'^(\d+) runs, 0 differ$', text, re.MULTILINE)[1]) for text in said)
                self.assertGreater(runs, 10 ** length)

    def fuzz(self, seconds):
        """Fuzzes for some seconds, and gives how many scripts were run."""
        done = subprocess.run([os.path.join(CHECKS, 'fuzz', 'run'), 'engines', str(seconds)], capture_output=True,
                              text=True, errors='replace', timeout=300, env={**os.environ, **self.fuzzed})
        self.assertEqual(done.returncode, 0, done.stderr[-3000:])
        return int(re.search(r'number_of_executed_units: (\d+)', done.stderr)[1])

    def test_what_a_fuzzer_finds(self):
        # a machine that does much else at that time gets more seconds
        self.assertTrue(self.fuzz(SECONDS) > 1000 or self.fuzz(10 * SECONDS) > 1000)
