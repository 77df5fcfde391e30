"""Each script of the manual, of the idioms, of the lesson and of the page on old listings, run by the built program,
prints what the page shows after it."""
import os
import re
import subprocess
import tempfile
import unittest

from trac import PROGRAM, TOP, run

LINES = r'((?:(?!```).*\n)*)'
PAIR = re.compile(rf'^```trac\n{LINES}```\n```output\n{LINES}```$', re.MULTILINE)
PRINTED = r'(?:```output\n(?:(?!```).*\n)*```\n)?'
TRACE = re.compile(rf'^```trac\n{LINES}```\n{PRINTED}```trace(.*)\n{LINES}```$', re.MULTILINE)


def read(page='LANGUAGE.md'):
    with open(os.path.join(TOP, 'docs', page), encoding='utf-8') as manual:
        return manual.read()


# The pages, and the least number of scripts on them whose output is shown.
PAGES = {'LANGUAGE.md': 41, 'IDIOMS.md': 8, 'LESSON.md': 10, 'LISTINGS.md': 4}


class Manual(unittest.TestCase):
    def test_all_scripts_are_compared(self):
        for page in PAGES:
            with self.subTest(page=page):
                text = read(page)
                compared = {found.start() for kind in (PAIR, TRACE) for found in kind.finditer(text)}
                self.assertEqual(len(compared), text.count('```trac\n'))

    def test_examples(self):
        for page, least in PAGES.items():
            pairs = PAIR.findall(read(page))
            self.assertGreaterEqual(len(pairs), least)
            for script, output in pairs:
                with self.subTest(page=page, script=script):
                    self.assertEqual(run(script[:-1]), (output[:-1].encode(), '', 0))


class Lesson(unittest.TestCase):
    def test_it_takes_ninety_minutes_in_ten_parts(self):
        text = read('LESSON.md')
        rows = re.findall(r'^\| (\d+) \| (?:\[(.*)\])?', text, re.MULTILINE)
        self.assertEqual(sum(int(minutes) for minutes, _ in rows), 90)
        self.assertEqual([part for _, part in rows if part], re.findall(r'^## (.*)$', text, re.MULTILINE))

    def test_the_buttons_and_switches_that_it_names_are_on_the_page(self):
        with open(os.path.join(TOP, 'hosts', 'page', 'index.html'), encoding='utf-8') as page:
            source = page.read()
        buttons = re.findall(r'<button[^>]*>(.*?)</button>', source)
        buttons += re.findall(r'<label class="choice">.*?<span>(.*?)</span>', source)
        named = set(re.findall(r'\*\*(.*?)\*\*', read('LESSON.md')))
        self.assertGreaterEqual(len(named), 6)
        self.assertLessEqual(named, set(buttons))


class StrangersScript(unittest.TestCase):
    """The line by which a server runs a script that it doesn't know."""

    LINE = re.search(r'```sh\n(timeout .*)\n```', read()).group(1)

    def serve(self, script):
        with tempfile.TemporaryDirectory() as room:
            os.symlink(PROGRAM, os.path.join(room, 'trac'))
            with open(os.path.join(room, 'script.trac'), 'w', encoding='utf-8') as file:
                file.write(script)
            path = room + os.pathsep + os.environ['PATH']
            done = subprocess.run(self.LINE, shell=True, cwd=room, env={**os.environ, 'PATH': path},
                                  capture_output=True, text=True, timeout=60, check=True)
        return done.stdout, done.stderr

    def test_output_has_an_end(self):
        output, lines = self.serve(f"#(ds,L,(#(ps,{'x' * 1000})#(cl,L)))#(cl,L)'")
        self.assertEqual(output, 'x' * 65536)
        self.assertRegex(lines, r'^trac: output failed at step \d+\n$')

    def test_steps_and_cells_have_an_end(self):
        self.assertEqual(self.serve("#(ds,L,(#(cl,L)))#(cl,L)'"), ('', 'trac: allowance of 200000 steps used up\n'))
        self.assertRegex(self.serve("#(ds,L,(#(cl,L)x#(cl,L)))#(cl,L)'")[1], '^trac: workspace of 16384 cells full')

    def test_the_man_page_has_it_too(self):
        shown = read('trac.1').replace('\\-', '-')
        self.assertIn(self.LINE.replace('<script', '< script'), shown)
