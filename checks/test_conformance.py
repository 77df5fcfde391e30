"""The built program meets the cases of conformance/, by the runner in that folder; the runner notices programs that do
something else; and the statements that the checker computes are those of the cases."""
import os
import subprocess
import sys
import unittest

from trac import PROGRAM, TOP

FOLDER = os.path.join(TOP, 'conformance')
sys.path.append(FOLDER)


def tried(*words):
    """The misses that the runner tells of a program, its last line, and its status."""
    done = subprocess.run([sys.executable, os.path.join(FOLDER, 'run.py'), *words],
                          capture_output=True, text=True, timeout=600)
    *missed, last = done.stdout.splitlines()
    return missed, last, done.returncode


def changed(change):
    """The words that run the program and change by sed what it says on standard error."""
    script = f'{PROGRAM} "$@" 2>&1 >&3 3>&- | sed "{change}" >&2'
    return 'bash', '-c', f'set -o pipefail; {{ {script}; }} 3>&1', 'bash'


class Conformance(unittest.TestCase):
    def test_the_program_meets_all_cases(self):
        missed, last, status = tried(PROGRAM)
        self.assertEqual((missed, status), ([], 0))
        self.assertGreaterEqual(int(last.split()[0]), 652)

    def test_without_accounting(self):
        missed, last, status = tried('--plain', PROGRAM)
        self.assertEqual((missed, status), ([], 0))
        self.assertGreaterEqual(int(last.split()[0]), 550)


class Runner(unittest.TestCase):
    def test_what_a_program_does_otherwise_is_told(self):
        other = changed('s/: 29 steps/: 30 steps/; s/peak 19/peak 20/; s/full at/full before/')
        for words, keys in [(('--plain', 'cat'), ['output']), (('false',), ['status']),
                            (other, ['steps', 'peak', 'line'])]:
            missed, _, status = tried(*words)
            self.assertEqual(status, 1)
            for key in keys:
                with self.subTest(key=key):
                    self.assertTrue([line for line in missed if f': {key} is ' in line])

    def test_the_statements_are_those_of_the_cases(self):
        import statements
        for kind in statements.KINDS:
            with self.subTest(kind=kind):
                self.assertTrue(statements.path(kind).read_text('utf-8') == statements.written(kind))
