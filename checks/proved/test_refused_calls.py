"""Calls whose one request for memory is refused: making a block, and a run in a block of its own. Tests of the program
make these calls and say what happened. test_memory refuses, one by one, the requests that the program makes while it
reads its words."""
import os
import subprocess
import unittest

from trac import TOP


def said(test, request):
    """The output of a test of the program when the request with that number is refused."""
    words = ['rt', 'try', '--test', '--fail-alloc', str(request), '--', f'tests::{test}']
    done = subprocess.run(words, cwd=os.path.join(TOP, 'crates', 'trac_cli'), check=True,
                          stdin=subprocess.DEVNULL, capture_output=True, text=True)
    return done.stdout + done.stderr


class RefusedCalls(unittest.TestCase):
    def test_a_block(self):
        lines = said('a_block_that_may_be_refused', 1)
        self.assertIn('a block was refused', lines)
        self.assertIn('1 passed; 0 failed', lines)

    def test_a_run(self):
        lines = said('a_run_that_may_be_refused', 1)
        self.assertIn('a run was refused', lines)
        self.assertIn('1 passed; 0 failed', lines)
