"""Which branches of the engine in C are taken in runs that are compared with the proved library: known scripts, long
ones, changed ones, those of a grammar and those that a fuzzer found, in one run, in turns, in little room, by
trac_check and by shown steps, also with too little memory, with functions of the host, with forms from outside and
their images, and by the rest of trac.h; and arithmetic with numbers of all lengths. All results are the same."""
import os
import re
import subprocess
import tempfile
import unittest

from covering_scripts import covering_scripts
from scripts import framed
from trac import TOP
from untaken import LISTED, contradictions, listed, page, untaken

CHECKS = os.path.join(TOP, 'checks')
HEADERS = os.path.join(TOP, 'hosts', 'c')
PROVED = os.environ.get('PROVED', os.path.join(TOP, 'dist', 'libtrac.a'))
COUNT = int(os.environ.get('COUNT', 100))
COVERING = ('covering.c', 'tight.c', 'indexed_rooms.c', 'memories.c', 'tight_traces.c', 'waiting_traces.c',
            'numbers_of_both.c', 'images_of_both.c', 'refused_by_both.c', os.path.join('fuzz', 'engines.c'))
SIZES = '-DCELLS=32u', '-DSTEPS=64u', '-DMOST_CELLS=8192'
# The least percentage of the branches; the percentage that is taken is printed.
LEAST = 75
# Each branch counts once, also where it is a part of several functions.
ONCE = '-D__OPTIMIZE_SIZE__'


class Branches(unittest.TestCase):
    def run_in(self, *words, **more):
        return subprocess.run(words, cwd=self.folder, check=True, capture_output=True, **more).stdout

    def compare(self):
        """Runs the scripts in both engines, and counts the branches. Gives how many scripts."""
        self.run_in(os.path.join(CHECKS, 'engines'), 'gcc', os.path.join(self.folder, 'in_c.o'), '-O0', '-w',
                    '--coverage', ONCE)
        self.run_in('gcc', '-std=c11', '-O1', '-w', '--coverage', *SIZES, '-I', HEADERS, '-I', CHECKS, '-o', 'covering',
                    *(os.path.join(CHECKS, name) for name in COVERING), 'in_c.o', PROVED)
        given = covering_scripts(COUNT)
        said = self.run_in('./covering', input=b''.join(map(framed, given)), timeout=900)
        self.assertEqual(int(said), len(given))
        return len(given)

    def test_what_is_taken(self):
        with tempfile.TemporaryDirectory() as self.folder:
            scripts = self.compare()
            told = self.run_in('gcov', '-b', '-n', 'in_c.o').decode()
            found = untaken(self.folder)
            self.assertEqual(contradictions(self.folder), [])
        lines, taken, branches = re.search(
            r"trac_engine\.c'\nLines executed:([\d.]+)%.*\n.*\nTaken at least once:([\d.]+)% of (\d+)", told).groups()
        print(f'{scripts} scripts: {lines} percent of the lines, {taken} percent of {branches} branches')
        if os.environ.get('WRITE'):
            with open(LISTED, 'w', encoding='utf-8') as file:
                file.write(page(found))
        self.assertGreater(float(taken), LEAST)
        known = listed()
        for function, (_, kinds) in found.items():
            with self.subTest(function=function):
                self.assertLessEqual(kinds.total(), known.get(function, 0), kinds)


if __name__ == '__main__':
    unittest.main()
