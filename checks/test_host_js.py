"""Functions of the host, forms defined from outside, and where values come from in the package for JavaScript: values,
errors, what is refused, and that nothing is lost. The programs in JavaScript of the page on embedding print what is
shown after them."""
import os
import re
import subprocess
import tempfile
import unittest

from trac import TOP, make

PACKAGE = os.path.join(TOP, 'build', 'npm')
PROGRAM = re.compile(r'^```js\n(import .*?)^```\n(?:\n```sh\n.*?^```\n)?\n```output\n(.*?)^```',
                     re.MULTILINE | re.DOTALL)


class HostInJavaScript(unittest.TestCase):
    def test_the_calls_of_the_host(self):
        make('npm')
        done = subprocess.run(['node', os.path.join(TOP, 'checks', 'host.mjs'), os.path.join(PACKAGE, 'trac.mjs')],
                              capture_output=True, text=True, timeout=60)
        self.assertEqual((done.stdout, done.stderr, done.returncode), ('ok\n', '', 0))

    def test_each_program_of_the_page(self):
        make('npm')
        with open(os.path.join(TOP, 'docs', 'EMBEDDING.md'), encoding='utf-8') as page:
            text = page.read()
        found = PROGRAM.findall(text)
        self.assertEqual(len(found), len(re.findall('^```js', text, re.MULTILINE)))
        self.assertGreaterEqual(len(found), 4)
        for program, wanted in found:
            with self.subTest(program=program), tempfile.TemporaryDirectory() as room:
                path = os.path.join(room, 'program.mjs')
                os.makedirs(os.path.join(room, 'build'))
                os.symlink(PACKAGE, os.path.join(room, 'build', 'npm'))
                with open(path, 'w', encoding='utf-8') as file:
                    file.write(program)
                done = subprocess.run(['node', path], capture_output=True, text=True, timeout=60)
                self.assertEqual((done.stdout, done.stderr, done.returncode), (wanted, '', 0))


if __name__ == '__main__':
    unittest.main()
