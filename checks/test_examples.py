"""Each script of examples/, run by the built program, prints the contents of the file beside it, or what
docs/EXERCISES.md shows, and ends without a fault."""
import glob
import os
import re
import unittest

from free_text import FREE_TEXT, OTHERS
from trac import TOP, run

FOLDER = os.path.join(TOP, 'examples')
EXERCISE = re.compile(r'^### (\d+)\. .*\n((?:(?!###? ).*\n)*)', re.MULTILINE)
BLOCK = re.compile(r'^```(\w+)\n((?:(?!```).*\n)*)```$', re.MULTILINE)
LEVEL = re.compile(r'^(Easy|Middling|Hard), (\d+) minutes\. \[A solution\]\(')
SOLUTION = re.compile(r'\]\(\.\./examples/(exercises/(\d+)-\S+\.trac)\)')


def read(name):
    with open(os.path.join(FOLDER, name), 'rb') as file:
        return file.read()


class Examples(unittest.TestCase):
    def test_outputs(self):
        scripts = sorted(glob.glob('*.trac', root_dir=FOLDER))
        self.assertGreaterEqual(len(scripts), 21)
        self.assertEqual([script[:-5] + '.out' for script in scripts],
                         sorted(glob.glob('*.out', root_dir=FOLDER)))
        for script in scripts:
            with self.subTest(script=script):
                self.assertEqual(run(read(script)), (read(script[:-5] + '.out'), '', 0))

    def test_the_script_that_prints_itself(self):
        self.assertEqual(run(read('itself.trac'))[0], read('itself.trac'))


class Exercises(unittest.TestCase):
    def test_solutions(self):
        with open(os.path.join(TOP, 'docs', 'EXERCISES.md'), encoding='utf-8') as page:
            exercises = EXERCISE.findall(page.read())
        self.assertEqual([int(number) for number, _ in exercises], list(range(1, 21)))
        solved = []
        for number, text in exercises:
            with self.subTest(exercise=number):
                blocks = {kind: block.strip('\n') for kind, block in BLOCK.findall(text)}
                [(name, count)] = SOLUTION.findall(text)[:1]
                self.assertRegex(text, LEVEL)
                script = read(name)
                self.assertEqual(int(count), int(number))
                self.assertTrue(script.decode().strip('\n').endswith(blocks.get('input', '')))
                output, lines, status = run(script)
                self.assertEqual((output.decode().strip('\n'), lines, status),
                                 (blocks['output'], '', 0))
                if 'trac' in blocks:
                    self.assertEqual(run(blocks['trac']), (b'', '', 0))
                solved.append(name)
        self.assertEqual(solved, sorted(glob.glob('exercises/*.trac', root_dir=FOLDER)))


class Descriptions(unittest.TestCase):
    def test_each_script_is_described(self):
        described = read('README.md').decode()
        for script in glob.glob('*.trac', root_dir=FOLDER):
            self.assertIn(f'**[{script[:-5]}]({script})**', described)

    def test_each_solution_is_explained(self):
        with open(os.path.join(TOP, 'docs', 'EXERCISES.md'), encoding='utf-8') as page:
            reasons = page.read().split('\n## Why the solutions are so\n')[1]
        self.assertEqual([int(number) for number in re.findall(r'^(\d+)\. ', reasons, re.MULTILINE)],
                         list(range(1, 21)))


class FreeText(unittest.TestCase):
    def test_it_comes_out_as_it_went_in(self):
        for name, given, wanted in FREE_TEXT:
            with self.subTest(script=name):
                script, apostrophe, _ = read(f'{name}.trac').partition(b"'")
                whole = script + apostrophe + given.encode()
                self.assertEqual(run(whole), (wanted.encode(), '', 0))

    def test_each_script_that_reads_is_tried(self):
        scripts = glob.glob('**/*.trac', root_dir=FOLDER, recursive=True)
        reading = [name[:-5] for name in scripts if re.search(rb'#\(r[sc]\)', read(name))]
        tried = [name for name, _, _ in FREE_TEXT]
        self.assertEqual(sorted(reading), sorted([*tried, *OTHERS]))
