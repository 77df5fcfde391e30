"""The examples for a Cortex-M3 in C and in Rust, in QEMU: a script and a session over the serial line in 16 KB of RAM,
and the same in 8 KB with 64 cells; forms that survive a reset; and the tables of sizes in the page on
embedding."""
import os
import re
import shutil
import subprocess
import tempfile
import unittest

from rust_library import BUILT
from trac import TOP

EXAMPLE = os.path.join(TOP, 'examples', 'cortex_m')
QEMU = ['qemu-system-arm', '-M', 'mps2-an385', '-nographic', '-monitor', 'none', '-serial', 'stdio', '-semihosting',
        '-kernel']
SESSION = ("#(ds,F,(#(eq,N,1,1,(#(ml,N,#(cl,F,#(su,N,1)))))))#(ss,F,N)'#(ps,(5! = )#(cl,F,5)(\n))'"
           "#(cl,F,-1)'#(pf,F)'#(hl)'")
SHORT = "#(ds,F,a-b)#(ss,F,-)'##(cl,F,+)'#(hl)'"
# A byte that the serial line has when the board is reset is lost.
LOST = '\n\n\n'


class Board:
    """What holds of a session on the board. `make` builds it with these words, and the page has its sizes in rows that
    begin so."""

    @classmethod
    def setUpClass(cls):
        cls.top = tempfile.mkdtemp()
        cls.addClassCleanup(shutil.rmtree, cls.top)

    def build(self, ram, cells):
        """The output of `make` about the program's sizes."""
        done = subprocess.run(['make', '-s', 'session.elf', f'RAM={ram}', *self.words(cells)], cwd=self.place,
                              capture_output=True, text=True, check=False)
        self.assertEqual(done.returncode, 0, done.stderr)
        return map(int, re.search(r'^ +text.*\n(.*)', done.stdout, re.MULTILINE)[1].split()[:3])

    def run_there(self, ram, cells, typed):
        """The sizes of the program, and its output when this is typed."""
        text, data, bss = self.build(ram, cells)
        with subprocess.Popen([*QEMU, 'session.elf'], cwd=self.place, stdin=subprocess.PIPE, stdout=subprocess.PIPE,
                              text=True) as running:
            try:
                said, _ = running.communicate(typed, timeout=60)
            finally:
                running.kill()
        self.assertEqual(running.returncode, 0, said)
        stack = int(re.search(r'stack (\d+) bytes', said)[1])
        self.assertLessEqual(data + bss + stack, ram)
        return (text + data, data + bss, stack), said

    def test_in_16_kilobytes(self):
        sizes, said = self.run_there(16384, 256, SESSION)
        self.assertTrue(said.startswith('hello\n5! = 120\n'), said)
        self.assertIn('[workspace]\n', said)
        self.assertIn('#(eq,<1>,1,1,(#(ml,<1>,#(cl,F,#(su,<1>,1)))))', said)
        self.is_told(16, 256, sizes)

    def test_in_8_kilobytes(self):
        sizes, said = self.run_there(8192, 64, SHORT)
        self.assertTrue(said.startswith('hello\na+b\n'), said)
        self.is_told(8, 64, sizes)

    def is_told(self, ram, cells, sizes):
        """The sizes are those of the table, as far as a compiler of another version goes."""
        with open(os.path.join(TOP, 'docs', 'EMBEDDING.md'), encoding='utf-8') as page:
            row = re.search(rf'^\| {self.row}{ram} KB \| {cells} \| ([\d,]+) \| ([\d,]+) \| ([\d,]+) \|$',
                            page.read(), re.MULTILINE)
        for told, size in zip(row.groups(), sizes):
            self.assertLess(abs(int(told.replace(',', '')) - size), 0.15 * size + 64, (row[0], sizes))


class InC(Board, unittest.TestCase):
    row = ''

    @classmethod
    def setUpClass(cls):
        super().setUpClass()
        cls.place = os.path.join(cls.top, 'cortex_m')
        shutil.copytree(EXAMPLE, cls.place)

    def words(self, cells):
        return [f'CELLS={cells}', f'ENGINE={TOP}/hosts/c', '-B']

    def test_forms_are_there_again_after_a_reset(self):
        for ram, cells in ((16384, 256), (8192, 64)):
            typed = ("#(ds,F,a-b)#(ss,F,-)#(cm,;)'", '#(save);', '#(ds,F,other);', '#(reset);', LOST,
                     '#(ps,##(cl,F,+));', '#(da);', '#(save);', '#(reset);', LOST, '#(ps,[##(ln,/)]);', '#(hl);')
            with self.subTest(ram=ram):
                _, said = self.run_there(ram, cells, ''.join(typed))
                lines = [line for line in said.splitlines() if line and not line.startswith('stack ')]
                self.assertEqual(lines, ['hello', '[saved]', 'hello', '[loaded]', 'a+b[saved]', 'hello', '[loaded]',
                                         '[]'])

    def test_forms_that_the_page_can_not_hold(self):
        """The page has 1,020 bytes for an image: 14, for each form 16 and its name, and 119 gaps of 8."""
        for last, said_so in ((39, '[saved]'), (40, '[too long to be saved]')):
            typed = ''.join(f"#(ds,{name},{'.' * count})'#(ss,{name},.)'" for name, count in zip('ABC', (40, 40, last)))
            _, said = self.run_there(16384, 256, f"{typed}#(save)'#(reset)'{LOST}#(ps,<##(ln,/)>)'#(hl)'")
            self.assertIn(said_so + '\n', said)
            self.assertEqual('[loaded]\n</A/B/C>' in said, last == 39)
            self.assertEqual('<>' in said, last == 40)


class InRust(Board, unittest.TestCase):
    row = 'Rust, '

    @classmethod
    def setUpClass(cls):
        super().setUpClass()
        cls.place = os.path.join(cls.top, 'rust', 'examples', 'cortex_m')
        shutil.copytree(os.path.join(TOP, 'hosts', 'rust'), os.path.join(cls.top, 'rust'),
                        ignore=shutil.ignore_patterns('target'))

    def words(self, cells):
        # The core library is built once.
        return [f'BOARD={EXAMPLE}', f'TARGET={BUILT}/board', 'FEATURES=' + ('' if cells == 256 else 'small')]


if __name__ == '__main__':
    unittest.main()
