"""A program doesn't compile if it reads the block while the machine over it is still used: the borrow checker refuses
it.

The programs are in a temporary repository, with a copy of the engine's sources."""
import os
import re
import shutil
import subprocess
import tempfile
import unittest

from trac import TOP, crates_of

CRATES = crates_of('trac_core')
PROGRAM = """//! A machine, and its block.
#![tactic(auto)]

use std::process::ExitCode;
use trac_core::{Cell, Machine, SliceSink, SliceSource};

fn main(_rt: HostRuntime) -> ExitCode {
    let mut block = [Cell::Byte(0); 64];
    let mut printed = [0; 16];
    let mut source = SliceSource::new(b"#(ps,hello)'", None);
    let mut sink = SliceSink::new(&mut printed, None);
    let machine = Machine::over(&mut block, 1000);
    BODY
    ExitCode::from(0)
}
"""
WHILE_IT_IS_USED = """let is_empty = block.is_empty();
    let _ = (is_empty, machine.run(&mut source, &mut sink));"""
AFTER_ITS_LAST_USE = """let _ = machine.run(&mut source, &mut sink);
    let _ = block.is_empty();"""


def lines_of_crates():
    """The list of crates of the temporary repository."""
    with open(os.path.join(TOP, 'crates.txt'), encoding='utf-8') as file:
        lines = [line for line in file if line.split(':')[0] in CRATES]
    return ''.join(lines) + 'reader: trac_core\n'


class Borrowing(unittest.TestCase):
    def answer(self, body, *words):
        """Whether rt answers 0 for a program with this body, and its messages."""
        with tempfile.TemporaryDirectory() as top:
            place = os.path.join(top, 'crates', 'reader')
            os.makedirs(os.path.join(place, 'src'))
            for folder in [os.path.join('crates', crate, part)
                           for crate in CRATES for part in ('src', 'specs', 'proofs')]:
                if os.path.exists(os.path.join(TOP, folder)):
                    shutil.copytree(os.path.join(TOP, folder), os.path.join(top, folder))
            for name, text in [
                    (os.path.join(top, 'crates.txt'), lines_of_crates()),
                    (os.path.join(top, 'HANDLES'), 'Handles allowed: none.\n'),
                    (os.path.join(place, 'src', 'main.rt'), PROGRAM.replace('BODY', body))]:
                with open(name, 'w', encoding='utf-8') as file:
                    file.write(text)
            done = subprocess.run(['rt', *words], cwd=place, stdin=subprocess.DEVNULL,
                                  capture_output=True, text=True, timeout=600)
            return done.returncode == 0, done.stdout + done.stderr

    def test_while_the_machine_is_used(self):
        passes, said = self.answer(WHILE_IT_IS_USED, 'try')
        self.assertFalse(passes)
        self.assertRegex(
            said, r'main.rt:13:\d+: error\[borrow-e0502\]: cannot borrow `block` as immutable')
        self.assertEqual(len(re.findall(r'\berror[\[:]', said)), 1)

    def test_after_its_last_use(self):
        # the same compiles and runs
        passes, said = self.answer(AFTER_ITS_LAST_USE, 'try')
        self.assertTrue(passes, said)
