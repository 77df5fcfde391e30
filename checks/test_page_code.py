"""The code of the page passes the type checker, and make.py takes into the page what the documents have."""
import os
import subprocess
import sys
import unittest

from trac import TOP, run

PAGE = os.path.join(TOP, 'hosts', 'page')
sys.path.insert(0, PAGE)
import make  # noqa: E402


class Code(unittest.TestCase):
    def test_types(self):
        done = subprocess.run(['tsc', '-p', PAGE], capture_output=True, text=True, check=False)
        self.assertEqual((done.stdout, done.returncode), ('', 0))

    def test_each_file_stands_in_the_page_once(self):
        files = sorted(name for name in os.listdir(PAGE) if name.endswith('.js'))
        self.assertEqual(sorted(os.path.basename(name) for name in make.CODE[1:]), files)
        done = subprocess.run(['node', '--check', '--input-type=module', '-'], input=make.code('0'), text=True,
                              capture_output=True, check=False)
        self.assertEqual((done.stderr, done.returncode), ('', 0))


class Documents(unittest.TestCase):
    def test_the_lecturers_notes(self):
        found = list(make.lesson())
        self.assertEqual([int(each['name'].split('.')[0]) for each in found], list(range(1, 11)))
        with open(os.path.join(TOP, 'docs', 'LESSON.md'), encoding='utf-8') as file:
            text = ' '.join(file.read().split())
        for each in found:
            kinds = [cue['kind'] for cue in each['cues'] if cue['kind'] != 'Answer']
            self.assertEqual(kinds, ['Show', 'Ask', 'Try'])
            for cue in each['cues']:
                self.assertFalse(']' in cue['words'] or cue['words'].endswith(' '), cue)
                self.assertTrue(cue['kind'] != 'Ask' or cue['words'].endswith('?'), cue)
            ask = ''.join(cue['words'][cue['kind'] == 'Answer':] for cue in each['cues']
                          if cue['kind'] in ('Ask', 'Answer'))
            self.assertIn(ask, text)

    def test_exercises(self):
        found = list(make.exercises())
        self.assertEqual([int(each['name'].split('.')[0]) for each in found], list(range(1, 21)))
        for each in found:
            self.assertTrue(each['output'].strip('\n'), each['name'])
            self.assertFalse([part for part in each['task'] if '```' in part or '](../' in part], each['name'])
        self.assertIn('#(ds,square', ''.join(found[7]['task']))
        self.assertEqual(found[3]['input'], "Ada (Countess, too)'\n")

    def test_functions(self):
        found = list(make.functions())
        names = [name[:2] for each in found for name in each['calls'].split('`')[1::2]]
        self.assertEqual(len(names), len(set(names)))
        for each in found:
            with self.subTest(calls=each['calls']):
                self.assertIn(each['calls'][1:3], each['script'])
                self.assertEqual(run(each['script'])[2], 0)


if __name__ == '__main__':
    unittest.main()
