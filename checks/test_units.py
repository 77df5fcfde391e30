"""The engine in C as builders use it: in units that take about as long to compile and share no name with a program that
they are linked with, included in a program, and built by CMake and Meson."""
import os
import re
import subprocess
import tempfile
import unittest

from trac import IN_C, TOP, cost, make

HEADERS = os.path.join(TOP, 'hosts', 'c')
ENGINE = os.path.join(HEADERS, 'trac_engine.c')
RUN_UNITS, UNITS = (1, 2, 3, 4), (1, 2, 3, 4, 5, 6, 7)
with open(os.path.join(TOP, 'VERSION'), encoding='utf-8') as whole:
    VERSION = whole.read().strip()
SHARED = 'libtrac.so.' + VERSION.rpartition('.')[0]
HELLO = """#include <stdio.h>
#include {engine}
int main(void) {{
    static trac_cell block[19];
    char printed[5];
    trac_report report = trac_run(block, 19, 29, "#(ps,hello)'", 12, printed, 5);
    fwrite(printed, 1, report.written, stdout);
    return 0;
}}
"""
CMAKE = """cmake_minimum_required(VERSION 3.13)
project(hello C)
{how}
add_executable(hello hello.c)
target_link_libraries(hello trac::trac)
"""
ADDED = f'add_subdirectory({TOP} trac)'
FETCHED = f'include(FetchContent)\nFetchContent_Declare(trac SOURCE_DIR {TOP})\nFetchContent_MakeAvailable(trac)'
MESON = "project('hello', 'c')\nexecutable('hello', 'hello.c', dependencies: dependency('trac'))\n"


def said(*words, **more):
    done = subprocess.run(words, capture_output=True, text=True, check=False, **more)
    if done.returncode:
        raise AssertionError(f'{words}: {done.stdout}{done.stderr}')
    return done.stdout


def names(*words):
    """The names that nm lists."""
    return set(re.findall(r'^\S+ \w (\S+)$', said('nm', '--defined-only', *words), re.MULTILINE))


def public_names():
    """The functions that the header declares."""
    with open(os.path.join(HEADERS, 'trac.h'), encoding='utf-8') as file:
        text = re.sub(r'/\*.*?\*/', '', file.read(), flags=re.DOTALL)
    declared = re.findall(r'^(TRAC_API )?(?:const )?[a-z]\w* \*?(trac_\w+)\(', text, re.MULTILINE)
    return {name: bool(api) for api, name in declared}


class Units(unittest.TestCase):
    @classmethod
    def setUpClass(cls):
        make('all', 'build/libtrac.a', f'build/{SHARED}')

    def size(self, unit):
        """The bytes of code, which grow as the time of the compiler does."""
        return int(said('size', os.path.join(TOP, f'build/units/{unit}.o')).split('\n')[1].split()[0])

    def test_the_longest_takes_a_third_at_most(self):
        for units in (RUN_UNITS, UNITS):
            sizes = [self.size(unit) for unit in units]
            self.assertLessEqual(max(sizes), sum(sizes) / 3, sizes)

    def test_they_share_nothing_with_others(self):
        """Neither library has names other than those of the header, and each of these can be exported."""
        public = public_names()
        self.assertGreater(len(public), 25)
        self.assertEqual([name for name, is_exported in public.items() if not is_exported], [])
        self.assertEqual(names('-g', os.path.join(TOP, 'build/libtrac.a')), set(public))
        self.assertEqual(names('-D', os.path.join(TOP, 'build', SHARED)), set(public))

    def test_what_other_objects_see_of_a_unit(self):
        public = public_names()
        for unit in UNITS:
            for line in said('readelf', '-sW', os.path.join(TOP, f'build/units/{unit}.o')).splitlines():
                found = re.search(r'(?:FUNC|OBJECT) +GLOBAL +(\w+) +\d+ (\S+)', line)
                if found:
                    hidden = found[2].startswith('trac_unit_')
                    self.assertEqual((found[1], found[2] in public), ('HIDDEN' if hidden else 'DEFAULT', not hidden))

    def test_functions_are_exported_where_all_is_hidden(self):
        with tempfile.TemporaryDirectory() as room:
            unit = os.path.join(room, '1.o')
            said('cc', '-O0', '-fvisibility=hidden', '-DTRAC_EXPORT', '-DTRAC_UNIT=1', '-c', '-o', unit, ENGINE)
            self.assertRegex(said('readelf', '-sW', unit), r'DEFAULT +\d+ trac_run\n')

    def test_the_name_of_the_shared_library(self):
        """The name changes whenever trac_abi refuses a program."""
        self.assertRegex(said('readelf', '-d', os.path.join(TOP, 'build', SHARED)), rf'soname: \[{SHARED}\]')

    def test_compilers_find_nothing_to_say(self):
        strict = ['-Wall', '-Wextra', '-Wpedantic', '-Werror']
        with tempfile.TemporaryDirectory() as room:
            # tcc replaces its output file, so that /dev/null would no longer be a device
            compilers = (['clang', '-std=c11', '-fsyntax-only'], ['g++', '-std=c++17', '-fsyntax-only', '-x', 'c++'],
                         ['tcc', '-c', '-o', os.path.join(room, 'unit.o')])
            for unit in UNITS:
                for words in compilers:
                    said(*words, *strict, f'-DTRAC_UNIT={unit}', ENGINE)

    def test_without_checks_and_traces_and_these_alone(self):
        public, check = set(public_names()), {'trac_check', 'trac_check_zeroed', 'trac_trace_step'}
        with tempfile.TemporaryDirectory() as room:
            for word, wanted in (('TRAC_WITHOUT_CHECK', public - check), ('TRAC_CHECK_ALONE', check)):
                half = os.path.join(room, word)
                said('cc', '-Wall', '-Wextra', '-Werror', '-O0', f'-D{word}', '-c', '-o', half, ENGINE)
                self.assertEqual(names('-g', half), wanted)

    def test_what_they_cost(self):
        """A program of units takes at most 3 percent more instructions than one whose engine is compiled whole."""
        counting = "#(ds,G,(#(gr,N,0,(#(cl,G,#(su,N,1))))))#(ss,G,N)#(cl,G,2000)"
        with tempfile.TemporaryDirectory() as room:
            program = os.path.join(room, 'trac')
            said('cc', '-std=c11', '-O2', '-DTRAC_WITHOUT_CHECK', '-o', program, os.path.join(HEADERS, 'trac.c'),
                 ENGINE)
            for script in ('a' * 20000, counting, ''.join(f'#(ds,k{i},v)#(cl,k{i})' for i in range(500))):
                whole_cost, cost_of_units = cost(program, script), cost(IN_C, script)
                self.assertLessEqual(cost_of_units, 1.03 * whole_cost)

    def test_a_number_that_is_no_unit(self):
        for unit in (0, 8):
            done = subprocess.run(['cc', '-fsyntax-only', f'-DTRAC_UNIT={unit}', ENGINE], check=False,
                                  capture_output=True, text=True)
            self.assertIn('TRAC_UNIT is to be 1 to 7', done.stderr)


class Builders(unittest.TestCase):
    def setUp(self):
        room = tempfile.TemporaryDirectory()
        self.addCleanup(room.cleanup)
        self.room = room.name
        self.write('hello.c', HELLO.format(engine='<trac.h>'))

    def write(self, name, text):
        with open(os.path.join(self.room, name), 'w', encoding='utf-8') as file:
            file.write(text)

    def run_in(self, *words):
        return said(*words, cwd=self.room)

    def test_a_program_that_includes_it(self):
        self.write('hello.c', HELLO.format(engine='"trac_engine.c"'))
        for compiler in (['gcc', '-std=c11'], ['g++', '-std=c++17', '-x', 'c++']):
            self.run_in(*compiler, '-Wall', '-Wextra', '-Werror', '-DTRAC_STATIC', '-DTRAC_WITHOUT_CHECK',
                        '-I', HEADERS, '-c', '-o', 'hello.o', 'hello.c')
            self.run_in('gcc', '-o', 'hello', 'hello.o')
            self.assertEqual(names('-g', os.path.join(self.room, 'hello.o')), {'main'})
            self.assertEqual(self.run_in('./hello'), 'hello')

    def test_cmake(self):
        for how, more in ((ADDED, []), (FETCHED, ['-DBUILD_SHARED_LIBS=ON'])):
            self.write('CMakeLists.txt', CMAKE.format(how=how))
            self.run_in('cmake', '-B', 'made', *more)
            self.run_in('cmake', '--build', 'made', '--parallel', '4')
            self.assertEqual(self.run_in('made/hello'), 'hello')
            self.run_in('rm', '-r', 'made')

    def test_meson(self):
        os.mkdir(os.path.join(self.room, 'subprojects'))
        os.symlink(TOP, os.path.join(self.room, 'subprojects', 'trac'))
        self.write('meson.build', MESON)
        self.run_in('meson', 'setup', '-Dtrac:buildtype=debug', 'made')
        self.run_in('meson', 'compile', '-C', 'made')
        self.assertEqual(self.run_in('made/hello'), 'hello')


if __name__ == '__main__':
    unittest.main()
