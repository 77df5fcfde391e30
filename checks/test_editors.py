"""The files for editors know exactly the functions of the language, and their patterns match what they should. No
editor runs here: the patterns are read as patterns of Python."""
import os
import re
import shutil
import subprocess
import sys
import tempfile
import unittest
from xml.etree import ElementTree

from function_names import ALTERNATIVES
from test_cheat_sheet import column
from test_install import SHARED
from test_manual import read
from trac import TOP

FOLDER = os.path.join(TOP, 'editors')
FILES = ['gtksourceview/trac.lang', 'nano/trac.nanorc', 'vim/syntax/trac.vim']


def made(place, *words):
    """Writes the names of a tree again, with the library of this tree."""
    library = os.path.join(TOP, 'build', SHARED)
    return subprocess.run([sys.executable, 'checks/function_names.py', library, *words], cwd=place, capture_output=True,
                          text=True)


def text_of(name):
    with open(os.path.join(FOLDER, name), encoding='utf-8') as file:
        return file.read()


class Editors(unittest.TestCase):
    def test_their_functions_are_those_of_the_language(self):
        calls = re.findall(r'`(.*?)`', ' '.join(column('\n| Call | Value |', read())))
        functions = [call[:2] for call in calls]
        self.assertEqual(len(functions), 28)
        for name in FILES:
            with self.subTest(name=name):
                [names] = ALTERNATIVES.findall(text_of(name))
                self.assertEqual(sorted(names.split('|')), sorted(functions))

    def test_their_functions_are_those_of_the_engine(self):
        done = made(TOP, '--check')
        self.assertEqual((done.returncode, done.stdout), (0, ''))

    def test_a_name_that_no_function_has_is_told_and_goes(self):
        with tempfile.TemporaryDirectory() as place:
            for folder in ('editors', 'checks/fuzz'):
                shutil.copytree(os.path.join(TOP, folder), os.path.join(place, folder))
            shutil.copy(os.path.join(TOP, 'checks', 'function_names.py'), os.path.join(place, 'checks'))
            for name in [*(f'editors/{name}' for name in FILES), 'checks/fuzz/words.dict']:
                path = os.path.join(place, name)
                with open(path, encoding='utf-8') as file:
                    text = file.read()
                with open(path, 'w', encoding='utf-8') as file:
                    file.write(text.replace('|cl|', '|cx|').replace('"cl,"', '"cx,"'))
                with self.subTest(name=name):
                    done = made(place, '--check')
                    self.assertEqual((done.returncode, done.stdout.partition(':')[0]), (1, name))
                    self.assertEqual(made(place).returncode, 0)
                    with open(path, encoding='utf-8') as file:
                        self.assertEqual(file.read(), text)

    def test_each_file_is_named_where_it_goes(self):
        found = [os.path.relpath(os.path.join(folder, name), FOLDER)
                 for folder, _, names in os.walk(FOLDER) for name in names]
        told = re.findall(r'`(\w+/\S+)`', text_of('README.md'))
        self.assertEqual(sorted(told), sorted(set(found) - {'README.md'}))


class GtkSourceView(unittest.TestCase):
    def setUp(self):
        self.tree = ElementTree.fromstring(text_of(FILES[0]))

    def test_what_is_referred_to_is_defined(self):
        styles = {style.get('id') for style in self.tree.iter('style')}
        used = {context.get('style-ref') for context in self.tree.iter('context')} - {None}
        self.assertEqual(used, styles)
        contexts = {context.get('id') for context in self.tree.iter('context')} - {None}
        referred = {context.get('ref') for context in self.tree.iter('context')} - {None}
        self.assertLessEqual(referred, contexts)
        self.assertEqual(contexts - referred, {self.tree.get('id')})

    def test_its_patterns(self):
        patterns = [each.text for kind in ('match', 'start', 'end') for each in self.tree.iter(kind)]
        self.assertEqual(len(patterns), 9)
        names = self.tree.find('definitions/define-regex')
        patterns = [pattern.replace(rf'\%{{{names.get("id")}}}', names.text) for pattern in patterns]
        for pattern in patterns:
            re.compile(pattern)
        function = re.compile(patterns[0], re.IGNORECASE)
        self.assertEqual([found.group() for found in function.finditer('#(ps,#(DA)##(cl,A)(cl,B)#(psx,ds)#(zz)')],
                         ['ps', 'DA', 'cl'])


class Nano(unittest.TestCase):
    def test_its_patterns(self):
        rows = re.findall(r'^(i?color) (\w+) "(.*)"$', text_of(FILES[1]), re.MULTILINE)
        self.assertEqual(len(rows), 5)
        line = "#(ds,A,(one, two))##(CL,A)#(zz,(x'y))'"
        colours = [''] * len(line)
        for kind, colour, pattern in rows:
            flags = re.IGNORECASE if kind == 'icolor' else 0
            for found in re.finditer(pattern.replace(r'\>', r'\b'), line, flags):
                colours[found.start():found.end()] = [colour] * len(found.group())
        shown = {colour: ''.join(each for each, one in zip(line, colours) if one == colour) for colour in set(colours)}
        self.assertEqual(shown, {'': ',A),A)zz,(xy))', 'green': ',(one, two)', 'brightyellow': '#(#(',
                                 'brightblue': 'dsCL', 'brightmagenta': '##(', 'brightred': "''"})


class Vim(unittest.TestCase):
    def test_each_group_is_coloured_and_defined(self):
        text = text_of(FILES[2])
        defined = set(re.findall(r'\bsyntax (?:region|match) (\w+)', text, re.MULTILINE))
        defined |= set(re.findall(r'matchgroup=(\w+)', text))
        coloured = re.findall(r'^highlight default link (\w+) \w+$', text, re.MULTILINE)
        self.assertLessEqual(set(coloured), defined)
        self.assertEqual(defined - set(coloured), {'tracActive', 'tracNeutral'})
        [parts] = re.findall(r'^syntax cluster tracParts contains=(.*)$', text, re.MULTILINE)
        self.assertLessEqual(set(parts.split(',')), defined)


if __name__ == '__main__':
    unittest.main()
