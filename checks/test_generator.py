"""The generator of the engine in C, hosts/c/generator: random modules, made of the instructions that the engine has, do
in C what they do in Node's engine; what the generator doesn't know it refuses.

test_generator.py FIRST COUNT tries COUNT modules, beginning with number FIRST, and prints how often each instruction
was tried."""
import contextlib
import io
import os
import re
import subprocess
import sys
import tempfile
import unittest
from collections import Counter
from concurrent.futures import ProcessPoolExecutor
from random import Random

from random_modules import Maker, can_test, placed
from trac import TOP

HERE = os.path.dirname(os.path.abspath(__file__))
IN_C = os.path.join(TOP, 'hosts', 'c')
sys.path.insert(0, os.path.join(IN_C, 'generator'))
import tree  # noqa: E402
import units  # noqa: E402
import wasm_to_c  # noqa: E402

PLACES = (65536, 196608)
COMPILERS = (['gcc', '-O2'], ['clang', '-O2'], ['tcc'])
# A compiler that detects accesses outside of a function's frame.
WATCHING = ['gcc', '-O1', '-fsanitize=address']
BATCH, GATE, LEAST = 20, 300, 100
ENTRIES = """static const struct entry {{
    const char *name; u64 (*function)(word, u32, u64);
}} entries[] = {{{}}};
"""
# A function as the program calls it: its own has a type that what it needs of its arguments gives it.
CALLED = 'static u64 called_{0}(word place, u32 a, u64 b) {{ return {0}(place, a, b); }}'


def occurring():
    """The instructions of the engine, as its C lists them."""
    with open(os.path.join(IN_C, 'trac_engine.c'), encoding='utf-8') as engine:
        listed = re.search(r'/\* Instructions:(.*?)\*/', engine.read(100000), re.DOTALL)[1]
    return sorted(re.findall(r'([a-z][\w.]*) \d+', listed.replace('\n *', '')))


def tool(*words, **more):
    done = subprocess.run(words, check=False, capture_output=True, text=True, **more)
    if done.returncode:
        raise AssertionError(f'{words}: {done.stderr[:3000]}')
    return done.stdout


class Translation:
    """A module as the generator translates it: its C, and what the program around its C calls."""

    def __init__(self, folder, name, *texts):
        """`texts` are the module's texts at the two places."""
        self.files = [os.path.join(folder, f'{name}.{place}.wasm') for place in PLACES]
        for file, text in zip(self.files, texts):
            tool('wat2wasm', '--enable-memory64', '--debug-names', '-o', file, '-', input=text)
        lines, same = (tool('wasm2wat', '--enable-memory64', file).splitlines() for file in self.files)
        module = wasm_to_c.module_of(lines, same)
        wasm_to_c.merge_exports(module)
        self.pieces = wasm_to_c.pieces_of(module)
        for piece in self.pieces.values():
            piece.bits = piece.known = 1 << 1
        self.counts = Counter(words[0] for _, _, body in module.functions for words in body)
        names = [module.names[one] for one in module.exports]
        self.entries = [f'{{"{name}", called_{name}}}' for name in names]
        with contextlib.redirect_stdout(io.StringIO()) as said:
            units.print_all(self.pieces, module.table(), module.rows())
        self.text = '\n'.join([said.getvalue(), *map(CALLED.format, names)])
        for shared in ('tables', 'is_in_row', 'has_address', 'no_address', 'table64'):
            self.text = f'#undef {shared}\n#define {shared} {name}_{shared}\n{self.text}'


def program_of(folder, translations):
    """The file of a program in C that calls each function of these modules."""
    with open(os.path.join(IN_C, 'generator', 'begin.c'), encoding='utf-8') as begin, \
            open(os.path.join(HERE, 'modules.c'), encoding='utf-8') as end:
        entries = ', '.join(entry for one in translations for entry in one.entries)
        parts = [begin.read(), *(one.text for one in translations), ENTRIES.format(entries + ', {0, 0}'), end.read()]
    file = os.path.join(folder, 'program.c')
    with open(file, 'w', encoding='utf-8') as program:
        program.write('\n'.join(parts))
    return file


def answers_in_c(file, compiler):
    program = f'{file}.{compiler[0]}'
    tool(*compiler, '-D_GNU_SOURCE', '-std=c11', '-w', '-I', IN_C, '-o', program, file)
    return tool(program, timeout=60).splitlines()


def answers_of_node(translations):
    return tool('node', '--experimental-wasm-memory64', os.path.join(HERE, 'modules.mjs'),
                *(one.files[0] for one in translations)).splitlines()


def batch(first, count, instructions):
    """Tries modules. Gives how often each instruction occurred in a module that was run, the answers, and the
    differences."""
    with tempfile.TemporaryDirectory() as folder:
        translations, counts = [], Counter()
        for number in range(first, first + count):
            maker = Maker(Random(number), number, instructions, counts)
            text = maker.module()
            translations.append(Translation(folder, f'm{number}', *(placed(text, maker.tables, at) for at in PLACES)))
        file = program_of(folder, translations)
        wanted = answers_of_node(translations)
        unlike = [f'{compiler[0]}: {line}, Node: {other}' for compiler in COMPILERS
                  for line, other in zip(answers_in_c(file, compiler), wanted, strict=True) if line != other]
    return sum((one.counts for one in translations), Counter()), wanted, unlike


def tried(first, count):
    """Tries a number of modules, several batches in parallel."""
    instructions = occurring()
    starts = range(first, first + count, BATCH)
    with ProcessPoolExecutor(os.cpu_count()) as pool:
        batches = pool.map(batch, starts, (min(BATCH, first + count - at) for at in starts),
                           [instructions] * len(starts))
        counts, answers, unlike = Counter(), [], []
        for some, given, wrong in batches:
            counts += some
            answers += given
            unlike += wrong
    return counts, answers, unlike


def report(counts, answers):
    traps = sum(answer.endswith(' trap') for answer in answers)
    least = min(counts, key=counts.get)
    return (f'{len(answers)} calls, of which {traps} trap; {sum(counts.values())} instructions of {len(counts)} kinds, '
            f'of the rarest, {least}, {counts[least]}')


class MadeUp(unittest.TestCase):
    def test_each_instruction_of_the_engine_can_be_tried(self):
        instructions = occurring()
        self.assertGreater(len(instructions), 70)
        self.assertEqual([name for name in instructions if not can_test(name)], [])
        self.assertLessEqual(set(instructions), tree.INSTRUCTIONS)

    def test_they_do_in_c_what_they_do_in_node(self):
        counts, answers, unlike = tried(0, GATE)
        print(f'{GATE} modules: {report(counts, answers)}')
        self.assertEqual(unlike, [])
        self.assertLess(sum(answer.endswith(' trap') for answer in answers), len(answers) / 2)
        self.assertEqual({name: counts[name] for name in occurring() if counts[name] < LEAST}, {})


def crafted(body, head='(param i64 i32 i64) (result i64)', more=''):
    """The text of a module with a function `f`, and more functions."""
    return f'{more}\n(func $f (export "f") {head} (local i64 i64)\n{body})'


def bytes_and_words(at):
    """Tables: 64 bytes, four addresses of them, 64 bytes more."""
    words = b''.join((at + i).to_bytes(8, 'little') for i in (3, 17, 30, 41))
    return bytes(range(1, 65)) + words + bytes(range(101, 165))


def translated(text, tables=bytes_and_words):
    with tempfile.TemporaryDirectory() as folder:
        return Translation(folder, 'm', *(placed(text, tables, at) for at in PLACES))


class Crafted(unittest.TestCase):
    """Modules that are written by hand."""

    def gives(self, body, *results, more=''):
        """The values that the function gives for the first arguments of modules.c, with every compiler and in Node; no
        stack frame is left."""
        with tempfile.TemporaryDirectory() as folder:
            made = Translation(folder, 'm', *(placed(crafted(body, more=more), bytes_and_words, at) for at in PLACES))
            file = program_of(folder, [made])
            for answers in (answers_of_node([made]), *(answers_in_c(file, each) for each in (*COMPILERS, WATCHING))):
                found = [line.split()[1] for line in answers if line.startswith('f ')]
                self.assertEqual(found[:len(results)], list(results), made.text)
        return made

    def is_refused(self, why, body, **more):
        with self.assertRaisesRegex(SystemExit, why):
            translated(crafted(body, **more))

    # ---- Numbers: the first argument is 0, 1, 7fffffff, 80000000, ..

    def test_a_difference_of_comparisons(self):
        less = '(i32.sub (i32.gt_u (local.get 1) (i32.const 1)) (i32.lt_u (local.get 1) (i32.const 1)))'
        self.gives(f'(i64.extend_i32_u {less})', '00000000ffffffff', '0' * 16, '0' * 15 + '1')
        self.gives(f'(i64.extend_i32_u (i32.shr_u {less} (i32.const 31)))', '0' * 15 + '1', '0' * 16, '0' * 16)

    def test_a_comparison_that_is_shifted(self):
        body = '(i64.extend_i32_u (i32.shl (i32.lt_s (local.get 1) (i32.const 1)) (i32.const 31)))'
        made = self.gives(body, '0000000080000000', '0' * 16, '0' * 16, '0000000080000000')
        self.assertIn('(u32)((i32)a2 < 1) << 31', made.text)

    def test_what_is_read_before_a_call_that_changes_it(self):
        more = '(func $g (param i64) (result i64) (i64.store (local.get 0) (i64.const 5)) (i64.const 0))'
        self.gives('(i64.store (local.get 0) (i64.const 7)) (i64.add (i64.load (local.get 0)) (call $g (local.get 0)))',
                   '0' * 15 + '7', more=more)

    def test_a_call_in_a_condition_is_always_made(self):
        more = '(func $h (param i64) (result i32) (i64.store (local.get 0) (i64.const 5)) (i32.const 1))'
        both = ('(i32.and (i32.eq (i32.add (local.get 1) (i32.const 3)) (i32.const 77)) '
                '(i32.ne (call $h (local.get 0)) (i32.const 0)))')
        self.gives(f'(if {both} (then (i64.store offset=8 (local.get 0) (i64.const 3)))) (i64.load (local.get 0))',
                   '0' * 15 + '5', more=more)

    def test_a_value_that_nothing_reads(self):
        more = '(func $g (param i64 i32) (result i32) (i32.store (local.get 0) (local.get 1)) (local.get 1))'
        body = '(drop (call $g (local.get 0) (i32.const 9))) (i64.load32_u (local.get 0))'
        self.gives(body, '0' * 15 + '9', more=more)

    def test_a_division_that_nothing_reads(self):
        self.gives('(drop (i32.div_u (i32.const 9) (local.get 1))) (i64.const 5)', 'trap', '0' * 15 + '5')
        self.gives('(i64.extend_i32_u (select (i32.rem_u (i32.const 9) (local.get 1)) (i32.const 5) (i32.const 0)))',
                   'trap', '0' * 15 + '5')

    def test_a_text_that_looks_like_a_comment(self):
        made = translated(crafted('(i64.load8_u offset={tables+1} (i64.const 0))'), lambda at: b'a;;b(;c;)')
        self.assertIn('97, 59, 59, 98, 40, 59, 99, 59, 41', made.text)

    # ---- Exports

    def test_an_export_that_hands_its_parameters_on(self):
        inner, none, one, two = '$rattle::export_f', '0' * 16, '0' * 15 + '1', '0' * 15 + '2'
        more = f'(func {inner} (param i64 i32 i64) (result i64) (i64.extend_i32_u (local.get 1)))'
        handed, turned = (f'(call {inner} {" ".join(f"(local.get {i})" for i in order)})'
                          for order in ((0, 1, 2), (2, 1, 0)))
        for body, is_merged, results in (
                (handed, True, (none, one)), (turned, False, (none, one)),
                (f'(i64.add {handed} (i64.const 1))', False, (one, two)),
                (f'(i64.sub {handed} {handed})', False, (none, none))):
            with self.subTest(body=body):
                made = self.gives(body, *results, more=more)
                self.assertEqual('rattle_export_f' not in made.pieces, is_merged)
        more += f'(func $g (export "g") (param i64 i32 i64) (result i64) {turned})'
        self.assertIn('rattle_export_f', self.gives(handed, none, one, more=more).pieces)

    # ---- The stack

    def test_frames_of_other_shapes(self):
        shapes = ('(i64.add (i64.const -96) (global.get $__stack_pointer))',
                  '(i64.sub (i64.sub (global.get $__stack_pointer) (i64.const 16)) (i64.const 80))',
                  '(i64.add (i64.sub (local.tee 4 (global.get $__stack_pointer)) (i64.const 112)) (i64.const 16))')
        for shape in shapes:
            for how in ('(global.set $__stack_pointer (local.tee 3 {}))', '(local.set 3 {})'):
                body = (f'{how.format(shape)} (memory.fill (local.get 3) (i32.const 1) (i64.const 96)) (global.set '
                        '$__stack_pointer (i64.add (local.get 3) (i64.const 96))) (i64.const 7)')
                with self.subTest(shape=shape, how=how):
                    made = self.gives(body, '0' * 15 + '7')
                    # as many bytes, in words of 8
                    self.assertIn(f'room[{(112 if "112" in shape else 96) // 8}]', made.text)

    def test_frames_that_are_refused(self):
        end, frame = '(global.get $__stack_pointer)', '(global.set $__stack_pointer {}) (i64.const 0)'
        self.is_refused('taken|sub of stack', frame.format(f'(i64.sub {end} (local.get 2))'))
        self.is_refused('add of stack', frame.format(f'(i64.add {end} (local.get 2))'))
        self.is_refused('and of', frame.format(f'(i64.and (i64.sub {end} (i64.const 64)) (i64.const -32))'))
        self.is_refused('becomes', frame.format('(local.get 2)'))
        lowered = frame.format(f'(i64.sub {end} (i64.const 64))')
        self.is_refused('leaves the stack otherwise', lowered)
        self.is_refused('not the same on two ways', f'(if (local.get 1) (then {lowered} (drop))) (i64.const 0)')
        self.is_refused('not the same on two ways',
                        f'(local.set 3 {end}) (if (local.get 1) (then {lowered} (drop))) (local.set 4 {end}) '
                        '(global.set $__stack_pointer (local.get 3)) (local.get 4)')
        self.is_refused('not the same on two ways', f'(loop {lowered} (drop) (br_if 0 (local.get 1))) (i64.const 0)')
        self.is_refused('ge_s of', f'(i64.extend_i32_u (i64.ge_s {end} (i64.const 17)))')
        self.is_refused('ge_s of', f'(i64.extend_i32_u (i64.ge_s (i64.const 16) {end}))')

    # ---- The tables: bytes from 1 on, then the addresses of 4, 18, 31 and 42, then bytes from 101 on

    def test_addresses_by_a_biased_base(self):
        row = '(i64.shl (i64.add (i64.and (local.get 2) (i64.const 3)) (i64.const {})) (i64.const 3))'
        for before in (0, 1, 4):
            base = f'offset={{tables+{64 - 8 * before}}} {row.format(before)}'
            with self.subTest(before=before):
                self.gives(f'(i64.load8_u (i64.load {base}))', '0' * 14 + '04', '0' * 14 + '2a', '0' * 14 + '04')
        base = '(i64.add (i64.const {tables+56}) ' + row.format(1) + ')'
        self.gives(f'(i64.load8_u (i64.load {base}))', '0' * 14 + '04', '0' * 14 + '2a')
        self.gives(f'(local.set 3 {base}) (i64.load8_u (i64.load (local.get 3)))', '0' * 14 + '04', '0' * 14 + '2a')

    def test_a_number_beside_addresses(self):
        self.gives('(i64.load offset={tables+96} (i64.and (local.get 2) (i64.const 8)))', '6c6b6a6968676665',
                   '74737271706f6e6d')

    def test_parts_of_addresses_end_the_program(self):
        """What the generator can't know beforehand: a load that would read a part of an address, and a copy of one."""
        place, zero = '(i64.and (local.get 2) (i64.const 15))', '(i64.const 0)'
        for body in (f'(i64.load32_u offset={{tables+52}} {place})', f'(i64.load offset={{tables+52}} {place})',
                     f'(memory.copy (local.get 0) (i64.add (i64.const {{tables+48}}) {place}) (i64.const 8)) {zero}'):
            with self.subTest(body=body), tempfile.TemporaryDirectory() as folder:
                made = Translation(folder, 'm', *(placed(crafted(body), bytes_and_words, at) for at in PLACES))
                for compiler in COMPILERS:
                    answers = answers_in_c(program_of(folder, [made]), compiler)
                    self.assertEqual([line.endswith('trap') for line in answers[:2]], [False, True], made.text)

    def test_addresses_that_are_refused(self):
        zero, eight = '(i64.const 0)', '(local.get 0) (i64.const {tables+64})'
        self.is_refused('where an address stands', '(i64.load8_u (i64.const {tables+64}))')
        self.is_refused('where an address stands', '(i64.load8_u (i64.const {tables+79}))')
        self.is_refused('where an address stands', f'(i64.store {eight}) {zero}')
        self.is_refused('differ by more', '(i64.extend_i32_u (i32.const {tables+3}))')
        self.is_refused('differ by more', '(i64.const -{tables})')
        self.is_refused('no address of the tables', '(i64.load offset={tables+300} (local.get 2))')
        self.is_refused('a store at', f'(i64.store offset={{tables}} (local.get 2) {zero}) {zero}')
        self.is_refused('is written to', f'(i64.store (i64.const {{tables}}) {zero}) {zero}')
        self.is_refused('behind another', '(i64.load offset={tables} (i64.const {tables}))')
        self.is_refused('mul of', '(i64.mul (i64.const {tables}) (local.get 2))')
        with self.assertRaisesRegex(SystemExit, 'address of an address'):
            translated(crafted(zero), lambda at: (at + 8).to_bytes(8, 'little') + at.to_bytes(8, 'little'))
        with self.assertRaisesRegex(SystemExit, 'by more than addresses'):
            translated(crafted(zero), lambda at: (2 * at).to_bytes(8, 'little'))

    # ---- What the generator doesn't know

    def test_what_else_is_refused(self):
        zero = '(i64.const 0)'
        for name in ('i64.rotl', 'i64.rem_s'):
            self.is_refused(f'no test of {name}', f'({name} (local.get 2) (local.get 2))')
        self.is_refused('no test of nop', f'nop {zero}')
        self.is_refused('no test of memory.size', '(memory.size)')
        self.is_refused('no translation of', f'(block (result i64 i64) {zero} {zero}) (drop)')
        self.is_refused('no translation of', zero, head='(param f64) (result i64)')
        self.is_refused('no translation of .other', '(global.get $other)', more='(global $other i64 (i64.const 1))')
        self.is_refused('no translation of .table', zero, more='(table 1 funcref)')


if __name__ == '__main__':
    begin, how_many = map(int, sys.argv[1:])
    counted, given_answers, different = tried(begin, how_many)
    print(f'{how_many} modules: {report(counted, given_answers)}', *different[:20], sep='\n')
    sys.exit(bool(different))
