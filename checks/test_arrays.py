"""The block is the only memory: no function of the engine's crates allocates memory, except to make a block, and none
has an array, except for one byte of a device and for the buffers of devices, which only a caller makes. Constants and
tests are exempt; a copy of a constant array would count."""
import glob
import os
import re
import unittest

from trac import TOP, crates_of

# The lines with a bracket that may hold an array, and may stay: a byte of a device, the buffers that a
# caller puts in front of a reader or behind a writer, and patterns of slices.
ALLOWED = {
    'trac_devices/src/buffered.rt': {'bytes: [u8; CAPACITY],', 'bytes: [0; CAPACITY],'},
    'trac_devices/src/input.rt': {'let mut byte = [0];'},
    'trac_devices/src/output.rt': {'match self.writer.write(&[byte]) {'},
    'trac_devices/src/read_source.rt': {'let mut byte = [0];'},
    'trac_devices/src/write_sink.rt': {'match self.writer.write(&[byte]) {'},
    'trac_devices/src/slice_source.rt': {'[first, rest @ ..] => {'},
    'trac_functions/src/function.rt': {'let [first, second] = name else {', 'let [first, second, ..] = cells else {'},
    'trac_core/src/input_output.rt': {'[first, ..] => Some(character_of(first)),'},
}
CONTRACT = re.compile(r'^ *(?:requires|ensures|ghost)\b.*?'
                      r'^(?= *(?:requires|ensures|ghost|\{|pub|fn|let|//|\}|while|for)\b|\s*[{}]?\s*$)',
                      re.MULTILINE | re.DOTALL)
# What is no array: an index, an attribute, the type of a slice behind a pointer, an array of no elements.
NONE = re.compile(r"""(?<=[\w)\]?])\[|\[\]|\#!?\[[^\n]*|"""
                  r"""(?:&|->)\s*(?:'\w+\s+)?(?:mut\s+)?\[(?:[A-Z]\w*|[iu](?:8|16|32|64|128|size)|bool|char)\]|"""
                  r'"(?:\\.|[^"\\])*"|//[^\n]*')
# What takes memory; but for making a block, which a caller lends.
TAKEN = re.compile(r'^.*\b(?:(?:vec|format)!|(?:Vec|Box|Rc|Arc|String|to_vec|to_owned|to_string)\b).*$', re.MULTILINE)
MAKES_BLOCKS = 'trac_space/src/block.rt'
# A constant that is written over cells which are lent.
WRITTEN = re.compile(r'^ *\*\w+ = \w+;$', re.MULTILINE)
CONSTANT = re.compile(r'^ *(?:pub(?:\(\w+\))? )?(?:const|static) (\w+): ([^=;]*(?:;[^=]*)?)=[^;]*;', re.MULTILINE)


def brackets(text):
    """The lines of a source that may hold an array."""
    text = NONE.sub('', CONSTANT.sub('', CONTRACT.sub('', text)))
    return [line.strip() for line in text.split('\n') if '[' in line]


def takers(text):
    """The lines of a source that take memory."""
    text = re.sub('//[^\n]*', '', CONTRACT.sub('', text))
    return [line.strip() for line in TAKEN.findall(text)]


def copies(text):
    """The places where a constant array is used other than by an index, a method or a reference."""
    arrays = [name for name, kind in CONSTANT.findall(text) if kind.startswith('[')]
    return [found[0] for name in arrays for found in
            re.finditer(rf'(?<!&)\b{name}\b(?![\[.:])[^\n]*', WRITTEN.sub('', CONSTANT.sub('', text)))]


def sources():
    """The engine's files, but those of tests."""
    for crate in crates_of('trac_core'):
        for path in sorted(glob.glob(os.path.join(TOP, 'crates', crate, 'src', '**', '*.rt'), recursive=True)):
            if 'tests' not in os.path.relpath(path, TOP):
                yield path


class Arrays(unittest.TestCase):
    def test_no_body_has_one(self):
        seen = 0
        for path in sources():
            name = os.path.relpath(path, os.path.join(TOP, 'crates'))
            with self.subTest(file=name), open(path, encoding='utf-8') as file:
                text = file.read()
                self.assertEqual(set(brackets(text)), ALLOWED.get(name, set()))
                self.assertEqual(copies(text), [])
                self.assertEqual(bool(takers(text)), name == MAKES_BLOCKS, takers(text))
                seen += 1
        self.assertGreater(seen, 40)

    def test_an_array_is_found(self):
        for body in ('let table = [0; 8];', 'let table = [1, 2];', 'fn f(x: [u8; 4]) {', 'f(&[a, b]);', 'f(&[a]);',
                     'let x: Option<[u8; 2]> = None;', 'for c in [b"ab"] {'):
            self.assertEqual(len(brackets(f'fn g() {{\n    {body}\n}}\n')), 1, body)

    def test_what_takes_memory_is_found(self):
        for body in ('let all = vec![x];', 'let all: Vec<u8> = iterator.collect();', 'Box::new(x)', 'cells.to_vec()'):
            self.assertEqual(takers(f'fn g() {{\n    {body}\n}}\n'), [body])

    def test_a_copy_of_a_constant_is_found(self):
        text = ('const T: [u8; 2] = [1, 2];\nfn f() {\n    let copy = T;\n    let one = T[0];\n    g(&T);\n'
                '    *lent = T;\n}\n')
        self.assertEqual(copies(text), ['T;'])


if __name__ == '__main__':
    unittest.main()
