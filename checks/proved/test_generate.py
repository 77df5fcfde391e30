"""hosts/c/trac_engine.c and hosts/wasm/trac.wasm are generated from the sources: byte for byte, if the kit is the one
that they were made with."""
import os
import subprocess
import unittest

from trac import TOP

GENERATE = os.path.join(TOP, 'hosts', 'c', 'generate')


class Generated(unittest.TestCase):
    def test_the_engine_and_the_module_are_what_the_sources_give(self):
        done = subprocess.run([GENERATE, '--check'], capture_output=True, text=True, timeout=1800)
        self.assertEqual(done.returncode, 0, done.stdout + done.stderr)
