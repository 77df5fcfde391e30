"""What trac_trace has in common with trac: its help, also if it can't be written, and interrupted system calls."""
import os
import subprocess
import unittest

from test_interruptions import HELLO, interrupt, shown_though_interrupted
from test_program import are_not_written
from trac import TOP, TRACER


class Words(unittest.TestCase):
    def test_a_usage_that_shows_where_the_script_is(self):
        told = subprocess.run([TRACER, '--help'], capture_output=True, check=True)
        self.assertIn('\nUsage: trac_trace [OPTIONS] < SCRIPT\n', told.stdout.decode())
        done = subprocess.run([TRACER, 'file.trac'], input=b'', capture_output=True)
        self.assertIn('\nUsage: trac_trace [OPTIONS] < SCRIPT\n', done.stderr.decode())

    def test_the_version(self):
        with open(os.path.join(TOP, 'VERSION'), encoding='utf-8') as file:
            version = file.read().strip()
        done = subprocess.run([TRACER, '--version'], capture_output=True, text=True)
        self.assertEqual((done.stdout, done.stderr, done.returncode), (f'trac_trace {version}\n', '', 0))

    def test_texts_that_are_not_written(self):
        are_not_written(self, TRACER)


class InterruptedTraces(unittest.TestCase):
    def test_the_program_that_shows_steps(self):
        shown = subprocess.run([TRACER], input=HELLO, capture_output=True, check=True).stdout
        self.assertEqual(len(shown.splitlines()), 32)
        interrupt(self, [TRACER], (shown, '', 0))

    def test_the_help(self):
        shown_though_interrupted(self, TRACER)


if __name__ == '__main__':
    unittest.main()
