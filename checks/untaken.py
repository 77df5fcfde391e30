"""Which branches of the engine in C no compared run takes, as gcov counted them: how many in each function, and of
which kind. test_branches.py compares this with branches.md, and writes it anew with WRITE=1."""
import collections
import functools
import gzip
import json
import os
import re
import subprocess

from branch_kind import Kind
from branch_kinds import EXCLUDED, OTHERS
from trac import TOP

ENGINE = os.path.join(TOP, 'hosts', 'c', 'trac_engine.c')
LISTED = os.path.join(TOP, 'checks', 'branches.md')
BEFORE, DEEPEST = 40, 64
# The module re keeps fewer patterns than there are.
compiled = functools.lru_cache(None)(re.compile)
TITLES = {'Excluded': ('What is excluded, and by what', EXCLUDED), 'Not examined': ('What it is', OTHERS)}
HEAD = """# Branches of the engine in C that nothing takes

`WRITE=1 python3 -m pytest checks/proved/test_branches.py` writes this page, and that check fails if more branches of a
function aren't taken than this page says. Of {:,} branches, each counted once, {:,} aren't taken in any run that is
compared with the proved library, {:.1f} percent. {:,} of these, {:.1f} percent of all, can't be taken: what excludes
them was looked up for each kind, and the kind of a branch is told by its condition (`branch_kinds.py`). The check also
fails if a condition of such a kind is seen both true and false. Nobody has examined whether the other {:,} can be
taken.

A branch in lines that never ran has the kind of the branch that leads there. The names are those of `trac_engine.c`,
which have the crate, the module and the function.
"""


def counted(folder):
    """The lines of the engine that have code: number, function, how often they ran, and how often each branch did."""
    subprocess.run(['gcov', '-b', '--json-format', 'in_c.o'], cwd=folder, check=True, stdout=subprocess.DEVNULL)
    with gzip.open(os.path.join(folder, 'in_c.gcov.json.gz')) as file:
        [engine] = [one for one in json.load(file)['files'] if one['file'].endswith('trac_engine.c')]
    lines = {}
    for line in engine['lines']:
        row = lines.setdefault(line['line_number'], [line.get('function_name'), 0, []])
        row[1] += line['count']
        row[2] += [branch['count'] for branch in line['branches']]
    return sorted((number, *row) for number, row in lines.items())


def statement(source, number):
    """The text of a statement from this line on, up to where its parentheses close, and a trap behind it."""
    text = source[number - 1].strip()
    while text.count('(') > text.count(')') and number < len(source):
        text += ' ' + source[number].strip()
        number += 1
    return text + ' trap();' * (source[number].strip() == 'trap();')


def around(source, number):
    """The first line of the block that a line stands in, or the label before it."""
    line = source[number - 1]
    depth = len(line) - len(line.lstrip())
    return next((other.strip() for other in source[number - 2::-1] if len(other) - len(other.lstrip()) < depth), '')


def begun(source, number, function):
    """The lines of a function in front of a line."""
    first = next(place for place in range(number - 1, -1, -1) if re.match(rf'\S.*\b{function}\(', source[place]))
    return '\n'.join(source[first:number - 1])


def found_with(asked, found, text):
    """Whether a text has what is asked for, with one of the variables that were found for @."""
    names = [one for one in found.groups() if one] if '@' in asked else ['@']
    return any(compiled(asked.replace('@', one)).search(text) for one in names)


def fits(source, number, function, asked):
    """Whether a line has a condition as it is asked for."""
    found = compiled(asked.functions).match(function) and compiled(asked.condition).search(statement(source, number))
    if not found or not compiled(asked.after).search(source[number].strip()):
        return False
    if asked.within and not compiled(asked.within).search(around(source, number)):
        return False
    if asked.behind and not found_with(asked.behind, found, begun(source, number, function)):
        return False
    front = '\n'.join(source[max(0, number - BEFORE):number - 1])
    return not asked.before or found_with(asked.before, found, front)


def has_kind(source, number, function, asked):
    """Whether a line has a condition of a kind."""
    return any(fits(source, number, function, one) for one in (asked, *asked.also))


def kind(source, number, function):
    """The kind of the branches of a line in a function."""
    kinds = {**EXCLUDED, **OTHERS}
    return next(name for name in kinds if has_kind(source, number, function, kinds[name]))


def contradictions(folder):
    """The lines whose branches are all taken, although one of them can't be by its condition."""
    with open(ENGINE, encoding='ascii') as file:
        source = file.read().split('\n')
    return [(function, number, source[number - 1].strip()) for number, function, runs, branches in counted(folder)
            if runs and branches and all(branches) and EXCLUDED.get(kind(source, number, function), Kind('')).condition]


def indent(line):
    """How deep a line stands; a closing brace with what follows it counts as inside."""
    return len(line) - len(line.lstrip()) + line.lstrip().startswith('}')


def leading(roots, depth):
    """The kind of the last of these branches that stands less deep, or of the last one behind it that ran; the
    generator indents no deeper than DEEPEST."""
    last = roots[-1][1] if roots else 'other'
    return next((name for at, name in reversed(roots) if at < depth or depth >= DEEPEST), last)


def untaken(folder):
    """For each function how many branches it has, and of each kind how many weren't taken. A branch in a line that
    never ran has the kind of the one that leads there."""
    with open(ENGINE, encoding='ascii') as file:
        source = file.read().split('\n')
    found, roots, behind = collections.defaultdict(lambda: [0, collections.Counter()]), [], None
    for number, function, runs, branches in counted(folder):
        if function != behind:
            behind, roots = function, []
        missed = sum(1 for count in branches if not count)
        depth = indent(source[number - 1])
        name = kind(source, number, function) if runs or not roots else leading(roots, depth)
        if runs and missed and ' ? ' not in statement(source, number):
            roots.append((depth, name))
        found[function][0] += len(branches)
        found[function][1][name] += missed
    return found


def counts(found):
    """How many branches weren't taken: of each kind."""
    return sum((kinds for _, kinds in found.values()), collections.Counter())


def page(found):
    """What branches.md says."""
    total, missed = sum(branches for branches, _ in found.values()), counts(found)
    excluded = sum(missed[name] for name in EXCLUDED)
    lines = [HEAD.format(total, missed.total(), 100 * missed.total() / total, excluded, 100 * excluded / total,
                         missed.total() - excluded)]
    for title, (what, kinds) in TITLES.items():
        lines += [f'## {title}', f'| Kind | Branches | {what} |', '|---|---|---|']
        lines += [f'| {name} | {missed[name]} | {kinds[name].what} |' for name in kinds if missed[name]] + ['']
    lines += ['## Functions', '| Function | Branches | Not taken | Of which kinds |', '|---|---|---|---|']
    for function, (branches, kinds) in sorted(found.items()):
        if kinds.total():
            named = ', '.join(f'{name} {count}' for name, count in kinds.most_common() if count)
            lines.append(f'| `{function}` | {branches} | {kinds.total()} | {named} |')
    return '\n'.join(lines) + '\n'


def listed():
    """How many branches of each function branches.md says aren't taken."""
    with open(LISTED, encoding='utf-8') as file:
        return {function: int(count) for function, count in re.findall(r'^\| `(\w+)` \| \d+ \| (\d+) ', file.read(),
                                                                       re.MULTILINE)}
