"""The programs in C of the page on embedding, copied from it: built over the engine in C by two compilers and as C++,
each prints what is shown after it. The same functions work through Python's ctypes. Three programs of
examples/embedding_c are also on the page; these and the same three with Lua print what is in the files beside them."""
import ctypes
import os
import re
import shutil
import subprocess
import tempfile
import unittest

from trac import TOP, instructions

HEADERS = os.path.join(TOP, 'hosts', 'c')
EXAMPLES = os.path.join(TOP, 'examples', 'embedding_c')
LUA = '/usr/include/lua5.4/lua.h'
ENGINE = os.path.join(HEADERS, 'trac_engine.c')
PROGRAM = re.compile(r'^```c\n((?:#define .*\n)?#include .*?)^```\n(?:\n```sh\n.*?^```\n)?\n```output\n(.*?)^```',
                     re.MULTILINE | re.DOTALL)
# Defines so many forms, and lists them where a second word stands.
LISTING = """#include "trac.h"
#include <stdio.h>
#include <stdlib.h>
int main(int count, char **words) {
    static trac_cell block[400000];
    static trac_machine machine;
    static char script[400000];
    trac_form form = TRAC_NO_FORM;
    size_t length = 0, seen = 0;
    for (int i = 0; i < atoi(words[1]); i++)
        length += (size_t)sprintf(script + length, "#(ds,form%d,body%d)", i, i);
    script[length++] = '\\'';
    trac_open(&machine, block, 400000, 100000000);
    trac_turn(&machine, script, length, 1, NULL, 0, UINT64_MAX);
    while (count > 2 && trac_next_form(&machine, &form))
        seen += trac_form_name(&form, NULL, 0) && trac_form_text(&form, NULL, 0) && trac_form_codes(&form, NULL, 0);
    printf("%d", (int)seen);
    return 0;
}
"""
STRICT = ['-Wall', '-Wextra', '-Wpedantic', '-Wconversion', '-Werror', '-O1']
KINDS = (['gcc', '-std=c11'], ['clang', '-std=c11'], ['g++', '-std=c++17', '-x', 'c++'])


def programs():
    with open(os.path.join(TOP, 'docs', 'EMBEDDING.md'), encoding='utf-8') as page:
        return PROGRAM.findall(page.read())


class Embedding:
    """What holds of a shared library that `made_of` makes."""

    @classmethod
    def setUpClass(cls):
        room = tempfile.TemporaryDirectory()
        cls.addClassCleanup(room.cleanup)
        cls.room = room.name
        cls.library = os.path.join(cls.room, 'libtrac.so')
        subprocess.run(['gcc', '-shared', '-o', cls.library, *cls.made_of], check=True)

    def test_each_program_of_the_page(self):
        found = programs()
        self.assertGreaterEqual(len(found), 3)
        for number, (text, wanted) in enumerate(found):
            for kind in KINDS:
                with self.subTest(program=number, compiler=kind[0]):
                    source, program = (os.path.join(self.room, f'{number}.{end}') for end in ('c', 'out'))
                    with open(source, 'w', encoding='utf-8') as file:
                        file.write(text)
                    subprocess.run([*kind, *STRICT, '-I', HEADERS, '-o', program, source, '-x', 'none', self.library,
                                    f'-Wl,-rpath,{self.room}'], check=True)
                    done = subprocess.run([program], cwd=self.room, capture_output=True, text=True, check=True)
                    self.assertEqual(done.stdout, wanted)

    def test_a_machine_for_a_block_is_refused(self):
        text = '#include "trac.h"\nint main(void) {{ static trac_cell b[9]; static trac_machine m; {} return 0; }}\n'
        for call, is_good in (('trac_open(&m, b, 9, 9);', True), ('trac_open(b, &m, 9, 9);', False),
                              ('trac_open(&m, &m, 9, 9);', False), ('trac_rule(b);', False)):
            for kind in KINDS:
                source = os.path.join(self.room, 'swapped.c')
                with open(source, 'w', encoding='utf-8') as file:
                    file.write(text.format(call))
                done = subprocess.run([*kind, '-Werror', '-fsyntax-only', '-I', HEADERS, source], capture_output=True)
                self.assertEqual(done.returncode == 0, is_good, (call, kind, done.stderr))

    def test_listing_forms_grows_as_their_number(self):
        source, program = (os.path.join(self.room, f'listing.{end}') for end in ('c', 'out'))
        with open(source, 'w', encoding='utf-8') as file:
            file.write(LISTING)
        subprocess.run(['gcc', '-O1', '-I', HEADERS, '-o', program, source, self.library, f'-Wl,-rpath,{self.room}'],
                       check=True)

        def cost(count):
            with_it, without = (instructions([program, str(count), *more], b'') for more in (['list'], []))
            return with_it - without

        self.assertEqual(subprocess.run([program, '4000', 'list'], capture_output=True, check=True).stdout, b'4000')
        self.assertLess(cost(4000), 4.5 * cost(1000))

    def test_by_ctypes(self):
        class Report(ctypes.Structure):
            _fields_ = [('fate', ctypes.c_uint32), ('peak', ctypes.c_uint32), ('steps', ctypes.c_uint64),
                        ('written', ctypes.c_size_t), ('consumed', ctypes.c_size_t), ('wanted', ctypes.c_size_t)]

        library = ctypes.CDLL(self.library)
        library.trac_run.restype = Report
        library.trac_version.restype = library.trac_fate_name.restype = ctypes.c_char_p
        block, output = (ctypes.c_uint64 * 19)(), ctypes.create_string_buffer(16)
        report = library.trac_run(block, ctypes.c_size_t(19), ctypes.c_uint64(29), b"#(ps,hello)'", ctypes.c_size_t(12),
                                  output, ctypes.c_size_t(16))
        self.assertEqual((report.fate, report.steps, report.peak, output.raw[:report.written]), (2, 29, 19, b'hello'))
        self.assertEqual(library.trac_abi(10000, ctypes.c_size_t(112), ctypes.c_size_t(ctypes.sizeof(Report))), 1)
        with open(os.path.join(TOP, 'VERSION'), encoding='utf-8') as file:
            self.assertEqual(library.trac_version().decode(), file.read().strip())
        self.assertEqual(library.trac_fate_name(9), b'refused')
        unopened = (ctypes.c_uint64 * 14)()
        self.assertEqual(library.trac_rule(unopened), 9)
        library.trac_kind.restype = ctypes.c_char_p
        self.assertEqual(library.trac_kind(), self.kind)


class EngineInC(Embedding, unittest.TestCase):
    made_of, kind = ['-std=c11', '-O1', '-fPIC', ENGINE], b'generated'


def read(name):
    with open(os.path.join(EXAMPLES, name), encoding='utf-8') as file:
        return file.read()


class Examples(unittest.TestCase):
    beside_lua = 'sensor', 'template', 'stranger'

    def output(self, *words, **more):
        done = subprocess.run(words, capture_output=True, text=True, check=False, timeout=300, **more)
        self.assertEqual((done.returncode, done.stderr), (0, ''), words)
        return done.stdout

    def build(self, room, *targets):
        """The folder as it is in a tree, where it finds the engine, and no library that is installed."""
        place = shutil.copytree(EXAMPLES, os.path.join(room, 'examples', 'embedding_c'))
        os.symlink(os.path.join(TOP, 'hosts'), os.path.join(room, 'hosts'))
        self.output('make', '-s', '-C', place, 'PKG_CONFIG_PATH=', *targets)
        return place

    def test_they_print_what_is_beside_them(self):
        with tempfile.TemporaryDirectory() as room:
            place = self.build(room, 'CFLAGS=-std=c11 -O0')
            for name in ('embedding', *self.beside_lua):
                self.assertEqual(self.output(os.path.join(place, name)), read(f'{name}.out'), name)

    def test_the_page_has_the_same_programs(self):
        shown = dict(programs())
        for name in self.beside_lua:
            self.assertEqual(shown.get(read(f'{name}.c')), read(f'{name}.out'), name)

    @unittest.skipUnless(os.path.exists(LUA), f'{LUA} is missing: Lua 5.4 is not installed')
    def test_those_with_lua(self):
        with tempfile.TemporaryDirectory() as room:
            place = self.build(room, 'lua')
            for name in self.beside_lua:
                own = f'{name}_lua.out'
                wanted = read(own if os.path.exists(os.path.join(EXAMPLES, own)) else f'{name}.out')
                self.assertEqual(self.output(os.path.join(place, f'{name}_lua')), wanted, name)

    def test_the_lines_that_the_page_counts(self):
        told = re.findall(r'^\| `(\w+)`: [^|]* \| (\d+) \| (\d+) \|$', read('README.md'), re.MULTILINE)
        counted = [(name, *(str(read(f'{name}{kind}.c').count('\n')) for kind in ('', '_lua')))
                   for name in self.beside_lua]
        self.assertEqual(told, counted)


if __name__ == '__main__':
    unittest.main()
