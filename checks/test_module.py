"""The module for JavaScript does in Node what the program does: each script in each room and with each allowance, in
one run and in turns, and sessions. In SpiderMonkey, the engine of Firefox, it does the same, and meets the cases of
conformance/."""
import functools
import glob
import json
import os
import pathlib
import subprocess
import sys
import unittest

from rows import rows
from trac import TOP, make

CASES = os.path.join(TOP, 'conformance')
sys.path.append(CASES)
from run import cases  # noqa: E402

FATES = {'halted': 0, 'input ended': 0, 'workspace': 1, 'steps': 3}
PACKAGE = os.path.join(TOP, 'build', 'npm')


def lines(scripts):
    """Scripts with their cells and their steps, as lines of JSON."""
    return ''.join(json.dumps({'script': list(script), 'cells': cells, 'steps': steps}) + '\n'
                   for script, cells, steps in scripts).encode()


def lines_of_rows():
    return lines((row.script, row.cells, row.allowed) for row in rows())


@functools.cache
def answers():
    """What the module does in Node with the rows, and with a session."""
    make('npm')
    done = subprocess.run(['node', os.path.join(TOP, 'checks', 'runs.mjs'), os.path.join(PACKAGE, 'trac.mjs')],
                          input=lines_of_rows(), capture_output=True, timeout=300, check=True)
    return json.loads(done.stdout)


class Module(unittest.TestCase):
    def test_each_row(self):
        self.assertEqual(len(answers()['told']), len(rows()))
        for row, told in zip(rows(), answers()['told']):
            with self.subTest(row=row):
                self.assertEqual(
                    (bytes(told['output']), told['steps'], told['peak'], FATES[told['fate']]),
                    (row.output, row.steps, row.peak, row.status))

    def test_each_row_by_turns(self):
        self.assertGreater(len(answers()['turned']), len(rows()))
        for place, told in answers()['turned']:
            row = rows()[place]
            with self.subTest(row=row):
                self.assertEqual(
                    (bytes(told['output']), told['steps'], told['peak'], FATES[told['fate']]),
                    (row.output, row.steps, row.peak, row.status))


class Sessions(unittest.TestCase):
    def test_kept_forms(self):
        kept = answers()['kept']
        self.assertEqual(kept['told'], [['', 'input ended', 21], ['x-zx', 'input ended', 38],
                                        ['x<^><1>z', 'input ended', 8]])
        seen = kept['seen']
        self.assertEqual(seen['forms'], [
            {'name': [97], 'text': list(b'x<^><1>z'), 'items': [120, 256, 122], 'pointer': 1},
            {'name': [98], 'text': list(b'<^>'), 'items': [], 'pointer': 0}])
        self.assertEqual((seen['first'], seen['count'], seen['meta']), (1, 2, ord(';')))
        self.assertEqual((seen['neutral'], seen['active'], seen['rule'], seen['awaits']),
                         ([], [], 'idling', 'nothing'))
        self.assertEqual(seen['parts'], {'store': 11, 'neutral': 0, 'free': 989, 'active': 0})

    def test_a_session_that_is_restored(self):
        answer = answers()['restored']
        self.assertEqual(answer['told'], ['wants input', 'ax', 'ay', 'z', 'RangeError', True])
        seen = answer['seen']
        ps = [256, *b'ps', 258]
        self.assertEqual(seen['neutral'], [*ps, *ps, *b'a', 257, *b'rs'])
        self.assertEqual((seen['active'], seen['front']), (list(b')))'), list(b'))')))
        self.assertEqual((seen['rule'], seen['awaits']), ('end of call', 'text'))
        self.assertEqual(seen['parts'], {'store': 0, 'neutral': 12, 'free': 985, 'active': 3})

    def test_limits_that_are_refused(self):
        self.assertEqual(answers()['refused'], ['RangeError'] * 8)

    def test_text_and_version(self):
        with open(os.path.join(TOP, 'VERSION'), encoding='utf-8') as file:
            self.assertEqual((answers()['text'], answers()['version']), ('été', file.read().strip()))


class SecondEngine(unittest.TestCase):
    def told(self, given):
        """What scripts come to in SpiderMonkey."""
        make('npm')
        done = subprocess.run(['js102', '--module=' + os.path.join(TOP, 'checks', 'spidermonkey.mjs')], input=given,
                              env={**os.environ, 'NPM': PACKAGE}, capture_output=True, timeout=300, check=True)
        return [json.loads(line) for line in done.stdout.splitlines()]

    def test_each_row(self):
        told = self.told(lines_of_rows())
        self.assertEqual(len(told), len(rows()))
        for row, one in zip(rows(), told):
            with self.subTest(row=row):
                self.assertEqual((bytes(one['output']), one['steps'], one['peak'], FATES[one['fate']]),
                                 (row.output, row.steps, row.peak, row.status))

    def test_each_case(self):
        given = [case for name in sorted(glob.glob(os.path.join(CASES, '*.cases')))
                 for case in cases(pathlib.Path(name)) if 'fails' not in case]
        self.assertGreater(len(given), 600)
        told = self.told(lines((case['input'], int(case['cells']), int(case['allowance'])) for case in given))
        self.assertEqual(len(told), len(given))
        for case, one in zip(given, told):
            with self.subTest(case=case['name']):
                got = {'output': bytes(one['output']), 'status': str(FATES[one['fate']]), 'steps': str(one['steps']),
                       'peak': str(one['peak'])}
                self.assertEqual(got, {key: case.get(key, got[key]) for key in got})


if __name__ == '__main__':
    unittest.main()
