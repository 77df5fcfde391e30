"""Each edit that the prover must refuse applies: its lines occur in the file that it names, each once, and it changes
them. The kit reports an edit that doesn't apply only when it tries the edit, and the gate doesn't try those of
further-edits/."""
import os
import unittest

from trac import TOP


def faults(edit, read):
    """What keeps an edit from being made: a list, with nothing in it where it can be."""
    found, file, old, texts, pairs = [], None, None, {}, 0
    for line in edit.rstrip('\n').split('\n'):
        word, _, rest = line.partition(':')
        if word == 'file':
            file = rest.strip()
            texts.setdefault(file, read(file))
        elif word == 'old':
            old = rest[1:]
        elif word == 'new' and old:
            new = rest[1:]
            if texts.get(file, '').count(old) != 1:
                found.append(f'{file} has {texts.get(file, "").count(old)} times: {old.strip()}')
            if old == new:
                found.append(f'it leaves as it is: {old.strip()}')
            texts[file] = texts.get(file, '').replace(old, new)
            old, pairs = None, pairs + 1
        else:
            found.append(f'this line is out of place: {line}')
    return found or ([] if pairs and old is None else ['it has no old and new line'])


def edits():
    """The path of each edit, and the folder of the crate that it is of."""
    for crate in sorted(os.listdir(os.path.join(TOP, 'crates'))):
        home = os.path.join(TOP, 'crates', crate)
        for folder in (os.path.join(home, 'must-fail'), os.path.join(TOP, 'further-edits', crate)):
            for name in sorted(os.listdir(folder)) if os.path.isdir(folder) else ():
                yield os.path.join(folder, name), home


def text_of(path):
    """What a file holds, nothing where there is none."""
    if not os.path.isfile(path):
        return ''
    with open(path, encoding='utf-8') as file:
        return file.read()


class Edits(unittest.TestCase):
    def test_each_can_be_made(self):
        paths = list(edits())
        self.assertGreater(len(paths), 400)
        for path, home in paths:
            with self.subTest(edit=os.path.relpath(path, TOP)):
                self.assertTrue(path.endswith('.edit'))
                self.assertEqual(faults(text_of(path), lambda file: text_of(f'{home}/{file}')), [])

    def test_each_crate_of_further_edits_is_one(self):
        for crate in os.listdir(os.path.join(TOP, 'further-edits')):
            self.assertTrue(os.path.isdir(os.path.join(TOP, 'crates', crate, 'src')), crate)

    def test_what_cannot_be_made_is_found(self):
        text = 'let a = 1;\nlet b = 1;\n'
        pair = 'old: let a = 1;\nnew: let a = 2;\n'
        rows = [
            ('file: a.rt\n' + pair, 0),
            ('file: a.rt\n' + pair + 'old: a = 2;\nnew: a = 3;\n', 0),
            ('file: a.rt\n' + pair + pair, 1),
            ('file: b.rt\n' + pair, 1),
            (pair, 1),
            ('file: a.rt\nold: = 1;\nnew: = 2;\n', 1),
            ('file: a.rt\nold: let a = 1;\nnew: let a = 1;\n', 1),
            ('file: a.rt\nold: let a = 1;\n', 1),
            ('file: a.rt\nnew: let a = 1;\n', 1),
            ('file: a.rt\n' + pair + 'let a = 1;\n', 1),
            ('file: a.rt\n', 1),
            ('', 1),
        ]
        for edit, wanted in rows:
            found = faults(edit, lambda file: text if file == 'a.rt' else '')
            self.assertEqual(min(len(found), 1), wanted, (edit, found))


if __name__ == '__main__':
    unittest.main()
