"""Makes the page one file: make.py MODULE VERSION PAGE. The file contains the module for browsers, its JavaScript, the
page's own code, the examples and the exercises; a policy in its head forbids every connection."""
import base64
import glob
import gzip
import hashlib
import json
import os
import re
import sys

FOLDER = os.path.dirname(os.path.abspath(__file__))
TOP = os.path.dirname(os.path.dirname(FOLDER))
# Each file imports only from files before it in this list.
CODE = ['hosts/js/trac.mjs'] + [f'hosts/page/{name}.js' for name in (
    'codes', 'functions', 'machines', 'origins', 'history', 'dom', 'block', 'strings', 'forms', 'output', 'boxes',
    'search', 'runs', 'view', 'places', 'stepper', 'tree', 'trace', 'trial', 'difference', 'exercises', 'lessons',
    'guide', 'links', 'warnings', 'live', 'page')]
COMMENT = re.compile(r'^ */\*\*.*?\*/\n', re.MULTILINE | re.DOTALL)
IMPORT = re.compile(r"^import [^;]*? from '\.{1,2}/[^']*';\n", re.MULTILINE | re.DOTALL)
NAME = re.compile(r'^(?:export )?(?:async )?(?:function\*?|class|const|let) (\w+)', re.MULTILINE)
PART = re.compile('@([A-Z]+)@')


def read(*path):
    with open(os.path.join(TOP, *path), encoding='utf-8') as file:
        return file.read()


def code(version):
    """The JavaScript as one module: imported code comes before the code that imports it. The docstrings, which are a
    quarter of the sources, are left out."""
    text = '\n'.join(COMMENT.sub('', IMPORT.sub('', read(name))) for name in CODE)
    if re.search(r'</script|<!--', text, re.IGNORECASE):
        raise SystemExit('make.py: the code would end its own element')
    names = NAME.findall(text)
    for name in names:
        if names.count(name) > 1:
            raise SystemExit(f'make.py: two files have the name {name}')
    return text.replace('@VERSION@', version)


def examples():
    """The examples, which come after the scripts of the lesson."""
    for path in sorted(glob.glob(os.path.join(TOP, 'examples', '*.trac'))):
        with open(path, encoding='utf-8', newline='') as file:
            yield {'name': os.path.basename(path)[:-5], 'script': file.read()}


def cues(notes):
    """What a lecturer shows, asks and lets the class try: for each note its first word and the text after it. The
    answer to a question is a separate note."""
    for kind, text in re.findall(r'^- \*(\w+)\*(.*?)(?=^- |\Z)', notes, re.MULTILINE | re.DOTALL):
        words = re.sub(r'\[([^]]*)\]\([^)]*\)', r'\1', ' '.join(text.split()))
        end = words.rfind('? ') + 1 if kind == 'Ask' else 0
        yield {'kind': kind, 'words': words[:end] or words}
        if end:
            yield {'kind': 'Answer', 'words': f':{words[end:]}'}


def lesson():
    """The parts of docs/LESSON.md: each with its sentence, its script, the script's output, and the lecturer's
    notes."""
    for name, says, script, output, notes in re.findall(
            r'^## (\d+\. [^\n]*)\n+([^`]*?)\n```trac\n(.*?)\n```\n```output\n(.*?)\n```\n(.*?)(?=^## |\Z)',
            read('docs', 'LESSON.md'), re.MULTILINE | re.DOTALL):
        yield {'name': name, 'says': says.replace('\n', ' '), 'script': script, 'output': output,
               'cues': list(cues(notes))}


def cases(number):
    """The entries of an exercise in examples/exercises/cases.md: further cases, each with its input or its swap and
    with the expected output, and the tests of how a script makes its output."""
    section = re.search(rf'^### {number}\. .*?(?=^### |\Z)', read('examples', 'exercises', 'cases.md'),
                        re.MULTILINE | re.DOTALL)
    found, case = {'cases': []}, {}
    for kind, text in re.findall(r'^```(\w+)\n(.*?)^```$', section[0] if section else '', re.MULTILINE | re.DOTALL):
        if kind == 'output':
            found['cases'].append({**case, 'output': text})
        elif kind in ('needs', 'constant'):
            found[kind] = text.splitlines()
        else:
            case = {kind: text if kind == 'input' else text.splitlines()}
    return found


def numbered(heading):
    """The entries of a numbered list of docs/EXERCISES.md, without the places of their links."""
    section = read('docs', 'EXERCISES.md').split(f'\n## {heading}\n')[1].split('\n## ')[0]
    entries = re.findall(r'^\d+\. (.*?)(?=^\d+\. |\Z)', section, re.MULTILINE | re.DOTALL)
    return [re.sub(r'\[([^]]*)\]\([^)]*\)', r'\1', ' '.join(each.split())) for each in entries]


def exercises():
    """The exercises of docs/EXERCISES.md: each with its text, the script to begin with, its input, the expected output,
    a hint, a solution with the reasons for it, and what `examples/exercises/check` tries."""
    sections = re.findall(r'^### (\d+\. [^\n]*)\n(.*?)(?=^##)', read('docs', 'EXERCISES.md') + '##',
                          re.MULTILINE | re.DOTALL)
    for (name, text), hint, why in zip(sections, numbered('Hints'), numbered('Why the solutions are so')):
        blocks = dict(re.findall(r'^```(trac|input|output)\n(.*?)^```$', text, re.MULTILINE | re.DOTALL))
        solution = read(re.search(r'\(\.\./(examples/exercises/[^)]*)\)', text)[1]).strip('\n')
        words = re.sub(r'^```(?:input|output)\n.*?^```$| \[A solution\]\([^)]*\)\.', '', text,
                       flags=re.MULTILINE | re.DOTALL)
        parts = [part.strip() for part in re.split(r'```(?:trac)?\n|\n\n', words) if part.strip()]
        yield {'name': name, 'task': [part if part.startswith('#(') else part.replace('\n', ' ') for part in parts],
               'script': blocks.get('trac', '').rstrip('\n'), 'input': blocks.get('input', ''),
               'output': blocks['output'], 'hint': hint, 'why': why,
               'solution': solution.removesuffix(blocks.get('input', '').strip('\n')),
               **cases(name.split('.')[0])}


def functions():
    """The table of functions of docs/LANGUAGE.md, each row with the first script of the function's section."""
    text = read('docs', 'LANGUAGE.md')
    sections = dict(re.findall(r'^#### `(\w\w)[^\n]*\n.*?^```trac\n(.*?)\n```$', text, re.MULTILINE | re.DOTALL))
    table = text.split('## All functions on one page')[1].split('\n## ')[0]
    for row in re.findall(r'^\| (`.*) \|$', table, re.MULTILINE):
        calls, value, effect, needs = row.split(' | ')
        yield {'calls': calls, 'value': value, 'effect': effect, 'needs': needs, 'script': sections[calls[1:3]]}


def lessons():
    """Everything that there is to try, as JSON that can be in an element."""
    found = {'lesson': list(lesson()), 'examples': list(examples()), 'exercises': list(exercises()),
             'functions': list(functions())}
    return json.dumps(found, ensure_ascii=False).replace('<', '\\u003c')


def hashed(text):
    """What a policy names an element's text by."""
    return f"'sha256-{base64.b64encode(hashlib.sha256(text.encode()).digest()).decode()}'"


def page(module, version):
    """The whole page."""
    style, script = read('hosts', 'page', 'style.css'), code(version)
    parts = {
        'STYLE': style, 'CODE': script, 'LESSONS': lessons(), 'VERSION': version,
        'ENGINE': base64.b64encode(gzip.compress(module, 9, mtime=0)).decode(),
        'POLICY': "default-src 'none'; base-uri 'none'; form-action 'none'; "
                  f"script-src {hashed(script)} 'wasm-unsafe-eval'; style-src {hashed(style)}",
    }
    return PART.sub(lambda found: parts[found[1]], read('hosts', 'page', 'index.html'))


if __name__ == '__main__':
    with open(sys.argv[1], 'rb') as file:
        whole = page(file.read(), sys.argv[2])
    with open(sys.argv[3], 'w', encoding='utf-8', newline='') as file:
        file.write(whole)
