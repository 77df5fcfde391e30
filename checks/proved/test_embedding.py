"""The program that the page on embedding makes, word for word: its commands and its files, in a copy of the crates with
their built libraries."""
import os
import re
import shutil
import subprocess
import tempfile
import unittest

from trac import TOP

SECTION = re.compile(r'^### From nothing to a proved program\n(.*?)^### ', re.MULTILINE | re.DOTALL)
COMMANDS = re.compile(r'^```sh\n(.*?)^```$', re.MULTILINE | re.DOTALL)
FILE = re.compile(r'^`(crates/\S+)`[^\n]*:\n\n```rust\n(.*?)^```$', re.MULTILINE | re.DOTALL)
OUTPUT = re.compile(r'^```output\n(.*?)^```$', re.MULTILINE | re.DOTALL)


def read():
    with open(os.path.join(TOP, 'docs', 'EMBEDDING.md'), encoding='utf-8') as page:
        return SECTION.search(page.read()).group(1)


def left_out(folder, names):
    """What was made in a folder, but for its library."""
    return set(names) - {'rlib'} if os.path.basename(folder) == 'out' else set()


def copy_crates(place):
    for name in ('crates.txt', 'HANDLES'):
        shutil.copy(os.path.join(TOP, name), place)
    shutil.copytree(os.path.join(TOP, 'crates'), os.path.join(place, 'crates'), symlinks=True,
                    ignore=left_out)


def do(commands, place):
    return subprocess.run(['sh', '-euc', commands], cwd=place, capture_output=True,
                          timeout=3000, check=False)


class Embedding(unittest.TestCase):
    def test_program_of_the_page(self):
        section = read()
        make, prove_and_run = COMMANDS.findall(section)
        files = FILE.findall(section)
        self.assertEqual(len(files), 3)
        with tempfile.TemporaryDirectory() as place:
            copy_crates(place)
            made = do(make, place)
            self.assertEqual(made.returncode, 0, made.stderr)
            for name, text in files:
                with open(os.path.join(place, name), 'w', encoding='utf-8') as file:
                    file.write(text)
            done = do(prove_and_run, place)
            self.assertEqual(done.returncode, 0, done.stdout + done.stderr)
            # the sink writes a carriage return in front of each line feed of the script
            wanted = OUTPUT.search(section).group(1).replace('!\n', '!\r\n')
            self.assertIn(wanted.encode(), done.stdout)


if __name__ == '__main__':
    unittest.main()
