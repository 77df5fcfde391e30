"""The worked scripts, rows.txt: the tests of the crates have these rows, the built program prints what they say, and
the engine in C runs each in every room and with every allowance."""
import ctypes
import os
import shutil
import subprocess
import sys
import tempfile
import unittest

from test_install import SHARED
from trac import TOP, report
from worked_rows import tables, text

AMPLE, MANY, OUTPUT = 1000, 1000000, 100
WORKSPACE, STEPS = 3, 4
ROWS = os.path.join('crates', 'trac_tests', 'src', 'machine', 'rows.rt')
CONSTANTS = os.path.join('crates', 'trac_tests', 'src', 'machine.rt')


class Report(ctypes.Structure):
    """What a run reports, in trac.h."""
    _fields_ = [('fate', ctypes.c_uint32), ('peak', ctypes.c_uint32), ('steps', ctypes.c_uint64),
                ('written', ctypes.c_size_t), ('consumed', ctypes.c_size_t), ('wanted', ctypes.c_size_t)]


class Rooms(unittest.TestCase):
    def setUp(self):
        self.engine = ctypes.CDLL(os.path.join(TOP, 'build', SHARED)).trac_run
        self.engine.restype = Report
        self.engine.argtypes = [ctypes.c_void_p, ctypes.c_size_t, ctypes.c_uint64, ctypes.c_char_p, ctypes.c_size_t,
                                ctypes.c_char_p, ctypes.c_size_t]
        self.block = (ctypes.c_uint64 * AMPLE)()
        self.scripts = dict.fromkeys(text(row['input']) for rows in tables().values() for row in rows
                                     if not {'cells', 'allowance'} & set(row))

    def run_in(self, script, cells=AMPLE, allowed=MANY):
        """The output, the fate, the steps and the peak of a run."""
        output = ctypes.create_string_buffer(OUTPUT)
        told = self.engine(self.block, cells, allowed, script, len(script), output, OUTPUT)
        return output.raw[:told.written], told.fate, told.steps, told.peak

    def test_the_peak_is_the_least_room(self):
        for script in self.scripts:
            whole = self.run_in(script)
            output, *_, peak = whole
            self.assertEqual(self.run_in(script, peak), whole)
            for cells in range(peak):
                with self.subTest(script=script, cells=cells):
                    less, fate, _, held = self.run_in(script, cells)
                    self.assertEqual(fate, WORKSPACE)
                    self.assertTrue(output.startswith(less))
                    self.assertLessEqual(held, cells)

    def test_every_smaller_allowance_is_used_up(self):
        for script in self.scripts:
            whole = self.run_in(script)
            output, _, steps, peak = whole
            self.assertEqual(self.run_in(script, allowed=steps), whole)
            for allowed in range(steps):
                with self.subTest(script=script, allowed=allowed):
                    less, fate, done, held = self.run_in(script, allowed=allowed)
                    self.assertEqual((fate, done), (STEPS, allowed))
                    self.assertTrue(output.startswith(less))
                    self.assertLessEqual(held, peak)


class Rows(unittest.TestCase):
    def test_none_is_lost(self):
        self.assertEqual({name: len(rows) for name, rows in tables().items()}, {
            'SCANNED': 16, 'READ': 5, 'HALTING': 2, 'FORMS': 14, 'PARTS': 5, 'VALUES': 23, 'DISPLAYED': 4,
            'REPORTS': 30})
        self.assertTrue(all('input' in row and 'output' in row for rows in tables().values() for row in rows))

    def test_the_program_does_what_they_say(self):
        for row in (row for rows in tables().values() for row in rows):
            told = {key: ''.join(row.get(key, [otherwise])) for key, otherwise in (
                ('cells', '65536'), ('allowance', '1000000'), ('status', '0'))}
            if '0' in (told['cells'], told['allowance']):
                continue
            output, *counts, status = report(text(row['input']), '--cells', told['cells'], '--steps', told['allowance'])
            with self.subTest(row=row):
                self.assertEqual((output, str(status)), (text(row['output']), told['status']))
                if 'steps' in row:
                    self.assertEqual([str(count) for count in counts], row['steps'] + row['peak'])


class Sources(unittest.TestCase):
    """The rows in the tests of the crates."""

    def setUp(self):
        self.place = tempfile.mkdtemp()
        self.addCleanup(shutil.rmtree, self.place)
        for name in os.path.join('checks', 'worked_rows.py'), os.path.join('checks', 'rows.txt'), ROWS, CONSTANTS:
            os.makedirs(os.path.join(self.place, os.path.dirname(name)), exist_ok=True)
            shutil.copy(os.path.join(TOP, name), os.path.join(self.place, name))

    def made(self, *words):
        done = subprocess.run([sys.executable, 'checks/worked_rows.py', *words], cwd=self.place, capture_output=True,
                              text=True)
        return done.stdout, done.stderr, done.returncode

    def edit(self, name, old, new):
        path = os.path.join(self.place, name)
        with open(path, encoding='utf-8') as file:
            text_of_file = file.read()
        self.assertIn(old, text_of_file)
        with open(path, 'w', encoding='utf-8') as file:
            file.write(text_of_file.replace(old, new, 1))
        return text_of_file

    def test_they_are_of_this_file(self):
        self.assertEqual(self.made('--check'), ('', '', 0))

    def test_an_edit_is_told_and_goes(self):
        whole = self.edit(ROWS, '("abc", "abc")', '("abc", "abd")')
        self.assertEqual(self.made('--check'), (f'{ROWS}: not what rows.txt gives; run make rows\n', '', 1))
        self.assertEqual(self.made(), ('', '', 0))
        with open(os.path.join(self.place, ROWS), encoding='utf-8') as file:
            self.assertEqual(file.read(), whole)

    def test_another_constant_is_told(self):
        line = '''const HELLO: &str = "#(ps,hello)'";'''
        self.edit(CONSTANTS, line, line.replace('hello', 'hallo'))
        for words in (), ('--check',):
            told, errors, status = self.made(*words)
            self.assertEqual((told, errors, status), (f'machine.rt lacks the line: {line}\n', '', 1))
