"""The documents: each link leads to an existing file and heading, the guides name only existing files of the sources
and, on the way of a byte, existing functions, the words are spelt correctly, the page of the library has each fate, and
the index of the checks names each file of checks/ once, under the target of the Makefile that runs it."""
import glob
import os
import re
import subprocess
import unittest

from trac import TOP

CHECKS = os.path.join(TOP, 'checks')
# Words that the list of misspellings takes for others: of the kit, functions, words of scripts and of code.
WORDS = 'crate,bu,hel,nam,te,upto'
BLOCK = re.compile(r'^```.*?^```', re.MULTILINE | re.DOTALL)
LINK = re.compile(r'\]\(([^)#:\s]*)(#[^)]*)?\)')
LISTED = re.compile(r'^\| `([^`]*)` \| \S', re.MULTILINE)
HEADING = re.compile(r'^#+ (.*)$', re.MULTILINE)
# A file of the sources that a document names, if the name has no part in capitals, which stands for others.
SOURCE = re.compile(r'`((?![^`]*[A-Z]{4})[\w./]+\.(?:rt|antt|py|c|h|mjs|cases))`')
GUIDES = 'CONTRIBUTING.md', 'docs/ARCHITECTURE.md', 'docs/VERIFICATION.md', 'checks/README.md'


def documents():
    places = '*.md', 'docs/*.md', 'hosts/*/*.md', 'examples/**/*.md', 'editors/*.md', 'conformance/*.md', 'checks/*.md'
    return [path for where in places
            for path in glob.glob(os.path.join(TOP, where), recursive=True)]


def read(path):
    with open(path, encoding='utf-8') as page:
        return page.read()


def files_of(folder):
    """The files of the repository below a folder, new ones too."""
    found = subprocess.run(['git', 'ls-files', '-z', '--cached', '--others', '--exclude-standard'], text=True,
                           cwd=folder, capture_output=True, check=True).stdout.split('\0')
    return [name for name in found if os.path.isfile(os.path.join(folder, name))]


def anchors(path):
    """The names that links give the headings of a document."""
    heads = HEADING.findall(BLOCK.sub('', read(path)))
    return {re.sub(r'[^\w\- ]', '', head.lower()).replace(' ', '-') for head in heads}


class Documents(unittest.TestCase):
    def test_links(self):
        seen = 0
        for path in documents():
            for link, anchor in LINK.findall(BLOCK.sub('', read(path))):
                to = os.path.join(os.path.dirname(path), link) if link else path
                with self.subTest(page=os.path.relpath(path, TOP), link=link + anchor):
                    self.assertTrue(os.path.exists(to))
                    if anchor and to.endswith('.md'):
                        self.assertIn(anchor[1:], anchors(to))
                    seen += 1
        self.assertGreater(seen, 150)

    def test_files_that_are_named(self):
        paths = files_of(TOP)
        for guide in GUIDES:
            named = set(SOURCE.findall(BLOCK.sub('', read(os.path.join(TOP, guide)))))
            self.assertGreater(len(named), 3, guide)
            missing = {name for name in named if not any(f'/{path}'.endswith(f'/{name}') for path in paths)}
            self.assertEqual(missing, set(), guide)

    def test_the_way_of_a_byte(self):
        _, _, way = read(os.path.join(TOP, 'docs', 'ARCHITECTURE.md')).partition('## The way of a byte')
        count, rows = re.search(r'crosses (\d+) functions on this way:(.*?)\n## ', way, re.DOTALL).groups()
        crossed = [(file, name) for file, names in re.findall(r'`(\w+\.rt)`: ([^;|]*)', rows)
                   for name in re.findall(r'`(\w+)`', names)]
        self.assertEqual(len(crossed), int(count))
        for file, name in crossed:
            with self.subTest(file=file, function=name):
                there = glob.glob(os.path.join(TOP, 'crates', '*', 'src', '**', file), recursive=True)
                self.assertTrue(any(re.search(rf'\bfn {name}\b', read(path)) for path in there))

    def test_spelling(self):
        pages = documents() + glob.glob(os.path.join(TOP, 'docs', '*.[0-9]'))
        code = glob.glob(os.path.join(TOP, 'crates', '*', 'src', '**', '*.rt'), recursive=True)
        code += glob.glob(os.path.join(TOP, 'hosts', '*', '*.js')) + [os.path.join(TOP, 'hosts', 'c', 'trac.h')]
        told = subprocess.run(['codespell', '-L', WORDS, *pages, *code], capture_output=True, text=True, check=False)
        self.assertEqual(told.stdout, '')

    def test_the_page_of_the_library_has_each_fate(self):
        _, _, fates = read(os.path.join(TOP, 'hosts', 'c', 'trac.h')).partition('/* How a run or a turn ended')
        names = re.findall(r'^#define (TRAC_\w+)', fates.partition('\n\n')[0], re.MULTILINE)
        self.assertGreater(len(names), 10)
        told = read(os.path.join(TOP, 'docs', 'trac.3')).partition('.SH RETURN VALUE')[2].partition('.SH ')[0]
        self.assertEqual(set(names) - set(re.findall(r'TRAC_\w+', told)), set())

    def test_the_index_of_the_checks(self):
        there = [name for name in files_of(CHECKS) if name != 'README.md']
        self.assertGreater(len(there), 80)
        index = read(os.path.join(CHECKS, 'README.md'))
        rows = LISTED.findall(index)
        self.assertEqual(len(rows), len(set(rows)))
        self.assertEqual(set(rows), set(there))
        for target, section in re.findall(r'^## `make ([\w-]+)`(.*?)(?=^## )', index, re.MULTILINE | re.DOTALL):
            with self.subTest(target=target):
                self.assertEqual({name for name in there if target_of(name) == target}, set(LISTED.findall(section)))


def target_of(name):
    """The target of the Makefile that runs a file of checks/; none runs what the checks share."""
    folder, file = os.path.split(name)
    if folder == 'proved' or folder == 'machines':
        return f'check-{folder}'
    return 'new-function' if name == 'new_function.py' else 'check' if file.startswith('test_') else ''
