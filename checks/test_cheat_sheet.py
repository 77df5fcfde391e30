"""The man page of the language, docs/trac.7, fits on one printed page, and has the rules and the functions of the
manual."""
import os
import re
import subprocess
import unittest

from test_manual import read
from trac import TOP, run

PAGE = os.path.join(TOP, 'docs', 'trac.7')


def column(head, text):
    """The first column of the table of the manual with this head."""
    rows = text.split(head)[1].split('\n\n')[0].splitlines()[2:]
    return [row.split(' | ')[0].strip('| ') for row in rows]


def formatted(*words):
    return subprocess.run(['groff', '-t', '-man', '-dpaper=a4', '-P-pa4', *words, PAGE], capture_output=True,
                          check=True).stdout


def shown(width):
    done = subprocess.run(['man', '--warnings', '-l', PAGE], capture_output=True, text=True,
                          env={**os.environ, 'MANWIDTH': str(width), 'MANPAGER': 'cat', 'LC_ALL': 'C.UTF-8'})
    return done.stdout, done.stderr, done.returncode


class CheatSheet(unittest.TestCase):
    def test_it_is_one_printed_page(self):
        self.assertEqual(re.findall(rb'^%%Pages: (\d+)$', formatted('-T', 'ps'), re.MULTILINE), [b'1'])
        pages = re.findall(rb'/Type */Page\b', formatted('-T', 'pdf'))
        self.assertEqual(len(pages), 1)

    def test_it_formats_without_a_warning_and_fits_a_terminal(self):
        text, warnings, status = shown(80)
        self.assertEqual((warnings, status), ('', 0))
        self.assertLessEqual(max(map(len, text.splitlines())), 80)

    def test_its_functions_are_those_of_the_manual(self):
        calls = re.findall(r'`(.*?)`', ' '.join(column('\n| Call | Value |', read())))
        functions = read('trac.7').split('.SH FUNCTIONS')[1].split('.TE')[0]
        names = re.findall(r'^([a-z]{2}(?:,\S+)?)\tT\{|^\.B (\w\w)(?:,A)?$', functions, re.MULTILINE)
        told = [call or name for call, name in names]
        self.assertEqual(len(told), 28)
        self.assertEqual(sorted(name[:2] for name in told), sorted(call[:2] for call in calls))
        for call in told:
            if ',' in call:
                self.assertIn(call, calls)

    def test_its_rules_are_those_of_the_manual(self):
        rules = read('trac.7').split('.SH "SCANNING')[1].split('.TE')[0]
        signs = re.findall(r'^(\S.*)\tT\{$', rules, re.MULTILINE)
        whole = [sign.strip('`') for sign in column('\n| The active string begins with |', read())]
        self.assertEqual(len(signs), len(whole))
        self.assertEqual([sign for sign in signs if sign in whole], ['(', ',', '#(', '##(', ')'])

    def test_its_examples(self):
        self.assertIn('#(ad,Apples5,2) is Apples7', read('trac.7'))
        self.assertEqual(run("#(ad,Apples5,2)'")[0], b'Apples7')
