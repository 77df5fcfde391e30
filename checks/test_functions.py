"""Each function of the engine's table is named wherever a function must be named by hand: in the manual and its page,
in the cases of conformance, and among the jobs of bench/growing.py. No other code of bench/, editors/ and hosts/ quotes
more than a few of the names, and the grammar of scripts.py names only functions."""
import os
import re
import sys

import pytest

from trac import TOP

sys.path.append(os.path.join(TOP, 'bench'))
QUOTED = re.compile(r"""(['"`])(\w\w)\1""")
# The jobs that grow.
NAMES_BY_HAND = {'bench/growing.py'}


def read(*name):
    with open(os.path.join(TOP, *name), encoding='utf-8') as file:
        return file.read()


@pytest.fixture(name='functions')
def fixture_functions(trac_t64):
    return trac_t64.FUNCTIONS


def missing(names, found):
    """Which names aren't found, and which of those found are none of them."""
    return sorted(set(names) - set(found)), sorted(set(found) - set(names))


def test_the_table_is_in_order(functions):
    for name, function in functions.items():
        first, _, others = function.call.partition(',')
        assert first == name == function.name
        count = 0 if not others else None if others.endswith(',..') else others.count(',') + 1
        assert function.uses == count, name
        letters = others.split(',')
        if function.default_argument:
            assert letters[function.default_argument - 1] == 'Z', name
        assert ('Z' in letters) == bool(function.default_argument), name
        assert (letters[0] in ('N', 'N1')) == (function.forms in ('first', 'each')), name
        assert re.fullmatch(r'[A-Z][ -~]*\.', function.sentence), name
        for letter in re.findall(r'\b[A-Z]\d?\b', function.sentence):
            assert letter in letters, (name, letter)


def test_the_manual_tells_of_each_under_its_heading(functions):
    _, _, functions_on = read('docs', 'LANGUAGE.md').partition('\n## The functions\n')
    text = functions_on.partition('\n## All functions on one page\n')
    told = re.findall(r'^(?:### (.*)|#### `([^`]+)`: (.*))$', text[0], re.MULTILINE)
    rows, heading = [], ''
    for group, call, title in told:
        heading = group or heading
        if call:
            rows.append((call, title, heading))
    assert rows == [(each.call, each.title, each.group) for each in functions.values()]
    calls = re.findall(r'`([^`]+)`', ' '.join(line.split(' | ')[0] for line in text[2].splitlines()[2:]
                                              if line.startswith('| `')))
    assert calls == [each.call for each in functions.values()]


def test_the_page_of_the_manual_names_each(functions):
    text = read('docs', 'trac.7').split('.SH FUNCTIONS')[1].split('.TE')[0]
    rows = re.findall(r'^([a-z]{2})(?:,\S+)?\tT\{|^\.B (\w\w)(?:,A)?$', text, re.MULTILINE)
    names = [first or second for first, second in rows]
    assert missing(functions, names) == ([], [])


def test_each_has_cases(functions):
    text = read('conformance', 'functions.cases')
    assert missing(functions, [name.lower() for name in re.findall(r'#\((\w\w)\b', text)
                               if name.lower() in functions]) == ([], [])


def test_each_has_a_job_that_grows(functions):
    from growing import GROWING
    first = {name.split()[0] for name, *_ in GROWING}
    assert missing(functions, first & set(functions)) == ([], [])


def test_no_list_of_functions_stands_beside_the_table(functions):
    found = {}
    for folder in ('bench', 'editors', 'hosts'):
        for place, _, files in os.walk(os.path.join(TOP, folder)):
            for name in files:
                path = os.path.relpath(os.path.join(place, name), TOP)
                if not name.endswith(('.c', '.h', '.py', '.js', '.mjs')) or name == 'trac_engine.c':
                    continue
                names = {quoted for _, quoted in QUOTED.findall(read(path))} & set(functions)
                if len(names) > 4:
                    found[path] = len(names)
    assert set(found) == NAMES_BY_HAND, found


def test_the_grammar_of_scripts_has_functions_alone(functions):
    from scripts import FUNCTIONS
    assert set(FUNCTIONS) - set(functions) == {'zz'}
