"""The man pages: they format without a warning, and say what the programs' help and the programs say."""
import os
import re
import shutil
import subprocess
import unittest

from trac import PROGRAM, TOP, TRACER, run

PAGE = os.path.join(TOP, 'docs', 'trac.1')
WIDE = {'MANWIDTH': '500', 'MANPAGER': 'cat', 'LC_ALL': 'C.UTF-8'}
NUMBER = re.compile(r'\b(\d+|[NPS])\b')
EXAMPLE = re.compile(r'^ +\$ printf "(.*)" \| trac (.*)\n((?: {11}\S.*\n)+)', re.MULTILINE)


def formatted(page=PAGE):
    """A page as lines of 500 columns, and the messages of man on standard error."""
    done = subprocess.run(['man', '--warnings', '-l', page], capture_output=True,
                          env={**os.environ, **WIDE})
    return done.stdout.decode(), done.stderr.decode(), done.returncode


def section(text, name):
    """The text of a section."""
    return text.split(f'\n{name}\n')[1].split('\n\n\n')[0].split('\n' + next_name(text, name))[0]


def next_name(text, name):
    names = re.findall(r'^[A-Z][A-Z ]+$', text, re.MULTILINE) + ['\0']
    return names[names.index(name) + 1]


def entries(text):
    """The tagged paragraphs of a section: the tag and the text of each."""
    found = re.findall(r'^ {7}(\S.*)\n((?: {14}.*\n?)+)', text, re.MULTILINE)
    short = re.findall(r'^ {7}(\d+|signal) +(\S.*)$', text, re.MULTILINE)
    return {tag: words.strip() for tag, words in found + short}


# What the program says on standard error, an example of each line, and the status that it ends with then; a
# report ends nothing.
LINES = {
    'trac: 29 steps, peak 19 cells': None,
    'trac: workspace of 18 cells full at step 9': 1,
    "error: the command line isn't UTF-8": 2,
    'trac: allowance of 18 steps used up': 3,
    'trac: input failed at step 9': 4,
    'trac: output failed at step 19': 5,
    'trac: no memory for 65536 cells': 6,
    'trac: no memory for the command line': 6,
}


class Ranges(unittest.TestCase):
    def test_they_are_those_of_the_help(self):
        for program, page in ((PROGRAM, 'trac.1'), (TRACER, 'trac_trace.1')):
            with self.subTest(page=page):
                told = subprocess.run([program, '--help'], capture_output=True, check=True)
                text, _, _ = formatted(os.path.join(TOP, 'docs', page))
                for least, in_help, in_page in (
                        (2, r', 1 to (\d+) \[', r'from 1 to (\d+)\. +'),
                        (0, r', 0 for all, to (\d+) \[', r'from 0 to (\d+), 0 for all\. +')):
                    shown = re.findall(in_help + r'default: (\d+)\]', told.stdout.decode())
                    self.assertGreaterEqual(len(shown), least)
                    text = ' '.join(text.split())
                    self.assertEqual(re.findall(in_page + r'.*?The default is (\d+)', text), shown)


class TracePage(unittest.TestCase):
    def test_it_formats_without_a_warning_and_shows_what_is_printed(self):
        text, warnings, status = formatted(os.path.join(TOP, 'docs', 'trac_trace.1'))
        self.assertEqual((warnings, status), ('', 0))
        script, words, shown = re.search(
            r'^ +\$ printf "(.*)" \| trac_trace (.*)\n((?: {11}.*\S.*\n)+)', text, re.MULTILINE).groups()
        done = subprocess.run([TRACER, *words.split()], input=script.encode(), capture_output=True)
        self.assertEqual([line[11:] for line in shown.splitlines()],
                         done.stdout.decode().splitlines())
        told = subprocess.run([TRACER, '--help'], capture_output=True, check=True).stdout.decode()
        for option in re.findall(r'--\w+', told):
            self.assertIn(option, section(text, 'OPTIONS'))


class ManPage(unittest.TestCase):
    @classmethod
    def setUpClass(cls):
        if not shutil.which('man'):
            raise AssertionError('man is missing: install man-db and groff')
        cls.text, cls.warnings, cls.status = formatted()
        cls.options = entries(section(cls.text, 'OPTIONS'))
        cls.lines = entries(section(cls.text, 'DIAGNOSTICS'))

    def test_it_formats_without_a_warning(self):
        self.assertEqual((self.warnings, self.status), ('', 0))

    def test_its_options_are_those_of_the_help(self):
        shown = run('', '--help')[0].decode().split('Options:\n')[1]
        rows = re.findall(r'^ +((?:-\w, )?--\w+(?: <\w>)?)  +(.*)$', shown, re.MULTILINE)
        self.assertEqual({option.replace('<N>', 'N') for option, _ in rows}, set(self.options))
        for option, words in rows:
            for default in re.findall(r'\[default: (\d+)\]', words):
                self.assertIn(f'The default is {default}.',
                              self.options[option.replace('<N>', 'N')])

    def test_its_statuses(self):
        self.assertEqual(set(entries(section(self.text, 'EXIT STATUS'))), {*map(str, range(7)), '70', 'signal'})

    def test_its_lines(self):
        told = {NUMBER.sub('#', line): words for line, words in self.lines.items()}
        self.assertEqual({NUMBER.sub('#', line) for line in LINES}, set(told))
        for line, status in LINES.items():
            if status:
                self.assertTrue(told[NUMBER.sub('#', line)].startswith(f'Status {status}.'), line)

    def test_its_examples(self):
        examples = EXAMPLE.findall(section(self.text, 'EXAMPLES') + '\n')
        self.assertEqual(len(examples), 3)
        for script, words, shown in examples:
            with self.subTest(words=words):
                output, lines, _ = run(script, *words.split())
                text = output.decode() + '\n' + lines if output else lines
                self.assertEqual([line.strip() for line in shown.splitlines()], text.splitlines())
