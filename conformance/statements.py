"""Writes the cases of scanning, functions, characters and limits as statements about the definition's run, which the
checker computes: python3 statements.py"""
import pathlib
import re

from run import cases

HERE = pathlib.Path(__file__).parent
PROOFS = HERE.parent / 'crates' / 'trac_laws' / 'proofs'
KINDS = ('scanning', 'functions', 'characters', 'limits')
FATES = {'1': 'Workspace', '3': 'Steps', '4': 'InputFailed'}

FILE = """\
-- The definition gives the cases of conformance/{kind}.cases, from which this file is written.
use Rattle.std.proofs.Common.{{◌≡◌, List, [], ◌∷◌, refl}}
use Rattle.std.specs.Prelude.{{codes, map}}
use Rattle.trac_language.specs.declared.fate.Fate.TheVariants.{{{fates}}}
use Rattle.trac_laws.proofs.Cases.{{Case, case, computing, ended{failing}, ran}}

abbrev cases : List Case
cases =
{cases}    []

all : map ran cases ≡ cases
unfolding computing
all = refl
"""

CASE = '    case {name} {cells} {allowance} ({way} {input}) {output} {fate} {steps} {peak} ∷\n'


def text(shown):
    """A text as the checker reads it."""
    if re.fullmatch(rb'[ !#-\[\]-~]+', shown):
        return f'(codes "{shown.decode()}")'
    return '(' + ''.join(f'{byte} ∷ ' for byte in shown) + '[])'


def statement(case):
    """A case with its fate and its texts."""
    fate = FATES.get(case['status'], 'Halted' if 'halts' in case else 'InputEnded')
    way = 'failing' if 'fails' in case else 'ended'
    texts = {key: text(case[key]) for key in ('input', 'output')}
    return {**case, **texts, 'name': text(case['name'].encode()), 'fate': fate, 'way': way}


def written(kind):
    """The whole file of statements of a kind."""
    found = [statement(case) for case in cases(HERE / f'{kind}.cases')]
    fates = [fate for fate in ('Halted', 'InputEnded', 'Workspace', 'Steps', 'InputFailed')
             if any(case['fate'] == fate for case in found)]
    failing = ', failing' if any(case['way'] == 'failing' for case in found) else ''
    return FILE.format(kind=kind, fates=', '.join(fates), failing=failing,
                       cases=''.join(CASE.format(**case) for case in found))


def path(kind):
    return PROOFS / f'{kind.capitalize()}Cases.antt'


if __name__ == '__main__':
    for each in KINDS:
        path(each).write_text(written(each), 'utf-8')
