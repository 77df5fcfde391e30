"""The package for npm: what it refuses and how, that nothing is lost, its types, and the files in it."""
import json
import os
import shutil
import subprocess
import tempfile
import unittest

from trac import TOP, make, report, trace

PACKAGE = os.path.join(TOP, 'build', 'npm')


def setUpModule():
    make('npm')


class Npm(unittest.TestCase):
    @classmethod
    def setUpClass(cls):
        done = subprocess.run(['node', os.path.join(TOP, 'checks', 'module.mjs'),
                               os.path.join(PACKAGE, 'trac.mjs')], capture_output=True, timeout=300)
        if done.returncode:
            raise AssertionError(done.stderr.decode())
        cls.told = json.loads(done.stdout)

    def test_what_can_not_be_used_is_named(self):
        wanted = {
            'script': 'TypeError: script', 'scriptArray': 'TypeError: script', 'cells': 'TypeError: cells',
            'cellsText': 'TypeError: cells', 'cellsRange': 'RangeError: cells',
            'stepsRange': 'RangeError: steps', 'option': 'TypeError: there is no option cell',
            'checked': 'TypeError: script', 'views': 'TypeError: there is no option last',
            'viewsRange': 'RangeError: width', 'bytes': 'TypeError: bytes', 'input': 'TypeError: input',
            'how': 'TypeError: there is no option end', 'most': 'RangeError: most',
            'from': 'RangeError: from', 'which': 'RangeError: which', 'whichText': 'TypeError: which',
            'snapshot': 'TypeError: snapshot', 'snapshotPages': 'TypeError: snapshot'}
        self.assertEqual(set(self.told['errors']), set(wanted))
        for name, begin in wanted.items():
            self.assertTrue((self.told['errors'][name] or '').startswith(begin),
                            (name, self.told['errors'][name]))

    def test_what_comes_next(self):
        self.assertEqual(self.told['looks'], {'wrong': [], 'dropped': 7})

    def test_the_arguments_of_a_call(self):
        (count, is_so, _), used_up = self.told['longCalls']
        self.assertEqual((count, is_so), (2, True))
        # no step is left to perform it
        self.assertEqual(used_up, [0, False, 0])

    def test_the_lines_of_steps(self):
        script = "#(ds,A,\u00e9)#(ps,#(cl,A)##(cl,A))#(zz)'".encode()
        words = {'steps': '', 'calls': '--calls --width 8', 'forms': '--forms --columns 30',
                 'some': '--from 9 --to 20 --width 0'}
        for name, (lines, *account) in self.told['traces'].items():
            with self.subTest(view=name):
                self.assertEqual(lines.splitlines(), trace(script, '--cells', '500', *words[name].split())[0])
                _, steps, peak, _ = report(script, '--cells', '500')
                self.assertEqual(account, ['input ended', steps, peak])

    def test_the_lines_of_a_great_call(self):
        told = self.told['controls']
        lines = trace(b"#(ps,(%s))'" % (b'\x01' * 65000), '--calls', '--width', '0', '--columns', '8')[0]
        self.assertEqual(told.pop('lines').splitlines(), lines)
        self.assertEqual(told, {'fate': 'input ended', 'steps': 25, 'printed': 65000, 'lost': 0})

    def test_a_step_is_told_whose_lines_find_no_memory(self):
        told = self.told['manyControls']
        self.assertGreater(told.pop('lost'), 0)
        self.assertEqual(told, {'fate': 'input ended', 'steps': 25, 'printed': 2500000})

    def test_what_is_suspicious(self):
        folder = os.path.join(TOP, 'examples', 'broken')
        self.assertGreater(len(self.told['suspicions']), 15)
        for name, lines in self.told['suspicions'].items():
            told = os.path.join(folder, name[:-4] + 'warnings')
            with self.subTest(script=name), open(told, encoding='utf-8') as file:
                self.assertEqual(lines, [line for line in file.read().splitlines() if line.startswith('line ')])
        self.assertEqual(self.told['endless'], {'fate': 'steps', 'steps': 500, 'peak': 36, 'warnings': [
            {'line': 1, 'column': 9, 'text': 'in the value of L, column 1: this call was open when the run ended'},
            {'line': 1, 'column': 9, 'text': 'in the value of L, column 5: the run ended here'}]})
        self.assertEqual(self.told['many'], 20000)

    def test_what_each_step_needs(self):
        with open(os.path.join(TOP, 'crates', 'trac_trace', 'stdout'), encoding='utf-8') as trace:
            self.assertEqual(self.told['needs'], [int(line[27:33]) for line in trace if line[:6].strip().isdigit()])

    def test_a_load_that_failed_can_be_tried_again(self):
        self.assertTrue(self.told['failed'].startswith('CompileError'), self.told['failed'])
        self.assertEqual(self.told['again'], 'again')

    def test_input_is_copied_before_anything_is_awaited(self):
        self.assertEqual((self.told['kept'], self.told['buffer']), ('kept', 'buffer'))

    def test_texts_keep_a_byte_order_mark_and_cut_characters(self):
        self.assertEqual(self.told['mark'], [0xfeff, ord('a')])
        self.assertEqual([text for text, _ in self.told['parts']], ['', '', '\u20ac'])

    def test_a_large_output_comes_whole(self):
        self.assertEqual(self.told['large'], 3000000)

    def test_a_report_can_be_json(self):
        self.assertEqual(self.told['json'], {'fate': 'input ended', 'steps': 29, 'peak': 19,
                                             'text': 'hello', 'consumed': 12})

    def test_nothing_inside_is_shown(self):
        self.assertEqual(self.told['shown'], [])

    @unittest.skipUnless(shutil.which('npm'), 'no npm')
    def test_what_it_packs(self):
        done = subprocess.run(['npm', 'pack', '--dry-run', '--json', '--offline'], cwd=PACKAGE,
                              capture_output=True, check=True)
        files = {file['path'] for file in json.loads(done.stdout)[0]['files']}
        self.assertEqual(files, {'package.json', 'README.md', 'trac.mjs', 'trac.d.mts', 'trac.wasm'})

    @unittest.skipUnless(shutil.which('tsc'), 'no tsc')
    def test_its_types_are_those_of_its_comments(self):
        with tempfile.TemporaryDirectory() as place:
            for name in ('trac.mjs', 'tsconfig.json'):
                shutil.copy(os.path.join(TOP, 'hosts', 'js', name), place)
            done = subprocess.run(['tsc', '-p', place], capture_output=True, text=True)
            self.assertEqual(done.returncode, 0, done.stdout)
            with open(os.path.join(place, 'trac.d.mts'), encoding='utf-8') as made, \
                    open(os.path.join(TOP, 'hosts', 'js', 'trac.d.mts'), encoding='utf-8') as kept:
                self.assertEqual(made.read(), kept.read().split('\n', 1)[1])


if __name__ == '__main__':
    unittest.main()
