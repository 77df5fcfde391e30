"""new_function.py: adds a made-up function to a copy of the tree, only at the places in the rows of ARCHITECTURE's
section "Where a function is named". Then it has the kit prove and build the engine, and checks that the function is
found in the programs in C, the package for Python, the module for JavaScript, the page and the editors' files. `make
new-function` runs it. It takes about 20 minutes, because the crates are proved once more, so the gate leaves it out."""
import glob
import os
import re
import shutil
import subprocess
import sys
import tempfile

from function_names import functions

TOP = os.path.dirname(os.path.dirname(os.path.abspath(__file__)))
ROWS = re.compile(r'^## Where a function is named\n.*?^\|---.*?\n(.*?)^(?!\|)', re.MULTILINE | re.DOTALL)
LANGUAGE = 'crates/trac_language'
FUNCTIONS = 'crates/trac_functions'
VARIANTS = 'use Rattle.trac_language.specs.declared.function.Function.TheVariants'

# The files with the number of functions.
COUNTED = [f'{LANGUAGE}/src/table.rt', f'{LANGUAGE}/proofs/table/function_at/Answers.antt', 'checks/test_editors.py',
           'checks/test_cheat_sheet.py']
# `id,X`, whose value is X: the text that each file gets, before a text that occurs once in it.
ADDED = [
    (f'{LANGUAGE}/src/function.rt', '    /// `eq`: asks', '    /// `id`: gives a text.\n    Identity,\n'),
    (f'{LANGUAGE}/src/table.rt', '    Function::Equal,\n', '    Function::Identity,\n'),
    (f'{LANGUAGE}/src/table.rt', "        (b'e', b'q')", "        (b'i', b'd') => Some(Function::Identity),\n"),
    (f'{LANGUAGE}/src/table.rt', '        Function::Equal => EQUAL', '        Function::Identity => IDENTITY,\n'),
    (f'{LANGUAGE}/src/table.rt', 'EQUAL, GREATER, HALT,', 'IDENTITY, '),
    (f'{LANGUAGE}/src/table/rows.rt', 'pub(super) const EQUAL: Facts', '''\
pub(super) const IDENTITY: Facts = Facts {
    name: b"id",
    call: b"id,X",
    title: b"identity",
    sentence: b"The value is X.",
    group: Group::Comparing,
    traits: Traits {
        uses: Some(1),
        ..NO_TRAITS
    },
};

'''),
    (f'{LANGUAGE}/specs/Function.antt', f'{VARIANTS}.{{Equal', f'{VARIANTS}.{{Identity}}\n'),
    (f'{LANGUAGE}/specs/Function.antt', '    ∷ (codes "eq"', '    ∷ (codes "id", Identity)\n'),
    (f'{LANGUAGE}/specs/Table.antt', 'name_of function.Equal', 'name_of function.Identity = codes "id"\n'),
    (f'{LANGUAGE}/specs/Table.antt', 'traits function.Equal',
     'traits function.Identity = record no_traits { uses = Some 1 }\n'),
    (f'{LANGUAGE}/proofs/Named.antt', 'named function.Equal', 'named function.Identity = refl\n'),
    (f'{LANGUAGE}/specs/Meaning.antt', f'{VARIANTS}.{{Equal', f'{VARIANTS}.{{Identity}}\n'),
    (f'{LANGUAGE}/specs/Meaning.antt', 'meaning_of Equal',
     'meaning_of Identity args world = valued (argument args 1) world\n'),
    (f'{FUNCTIONS}/src/function.rt', '        Function::Equal =>',
     '        Function::Identity => comparing::identity(work, arguments),\n'),
    (f'{FUNCTIONS}/src/comparing.rt', 'ghost use Rattle.trac_language.specs.declared.function.Function.TheVariants',
     'ghost use Rattle.trac_language.specs.declared.function.Function.TheVariants.{Identity};\n'),
    (f'{FUNCTIONS}/src/comparing.rt', '/// `eq,A,B,X,Y`', '''\
/// `id,X`: X.
pub fn identity(work: &mut Work, mut arguments: Arguments) -> CallResult
    requires { AreArguments work.old arguments }
    ensures makes { Performs Identity work.old arguments result work.new }
    ensures unmade { result ≡ CallResult.Full → work.new.forms ≡ work.old.forms }
    ensures keeps { KeepsRoom work.old work.new }
{
    let scanned = arguments.scanned;
    let value = arguments.next(work);
    give(work, value, scanned)
}

'''),
    (f'{FUNCTIONS}/proofs/Imports.antt', f'pub {VARIANTS}', f'pub {VARIANTS}.{{Identity}}\n'),
    (f'{FUNCTIONS}/proofs/comparing/identity/Answers.antt', None, '''\
use Rattle.trac_functions.proofs.Imports.{◌∷◌, false, ap, refl, sym, Identity, valued, meaning_of, world, texts}
use Rattle.trac_functions.proofs.MadeValues.{valued-of}
use Rattle.trac_functions.proofs.comparing.identity.Goals as goal

pub returns-clause-makes : goal.returns-clause-makes
unfolding meaning_of
returns-clause-makes c = λ name.
    let w = c.args.work.now in
    let ts = texts w c.args.arguments in
    c.give.ensures.makes Identity (name ∷ ts) false c.args.arguments.scanned refl
    (valued-of Identity (name ∷ ts) w.forms w.forms _ false
    (λ meta input. ap (λ t. valued t (world w.forms meta input)) (sym c.next-value.ensures.text)) (λ _. refl))
'''),
    ('crates/trac_laws/proofs/Values.antt', 'few function.Equal',
     'few function.Identity args w n e = of-count 1 n (Few function.Identity args w) e '
     '(rw (argument-take args 1 2 (omega arith)) refl)\n'),
    ('crates/trac_events/src/source.rt', '        Function::Equal =>',
     '        Function::Identity => ValueSource::Argument(1),\n'),
    ('crates/trac_events/specs/Sources.antt', 'function_source function.Equal',
     'function_source function.Identity args forms = Argument 1\n'),
    ('conformance/functions.cases', 'name: a string read in a string\n', '''\
name: a text given
input: [#(id,one,two)]'
output: [one]
steps: 36
peak: 23

'''),
    ('further-edits/trac_functions/identity_gives_the_second.edit', None, '''\
file: src/function.rt
old:         Function::Identity => comparing::identity(work, arguments),
new:         Function::Identity => comparing::equal(work, arguments),
'''),
    ('docs/LANGUAGE.md', '#### `eq,A,B,X,Y`', '''\
#### `id,X`: identity
Value: X.
```trac
#(id,one)'
```
```output
one
```
'''),
    ('docs/LANGUAGE.md', '| `eq,A,B,X,Y` |', '| `id,X` | X | none | the value |\n'),
    ('docs/trac.7', 'eq,A,B,X,Y\tT{', 'id,X\tT{\nX\nT}\n'),
    ('bench/growing.py', "    ('eq', ", "    ('id', 4000, lambda n: f'##(id,{text(n)})', linear),\n"),
]


def read(place, name):
    with open(os.path.join(place, name), encoding='utf-8') as file:
        return file.read()


def write(place, name, text):
    path = os.path.join(place, name)
    os.makedirs(os.path.dirname(path), exist_ok=True)
    with open(path, 'w', encoding='utf-8') as file:
        file.write(text)


def add(place):
    """Makes the additions, and counts the function."""
    for name, before, text in ADDED:
        old = read(place, name) if before else ''
        if before and before not in old:
            raise SystemExit(f'new_function: {name} has no {before!r}')
        write(place, name, old.replace(before, text + before, 1) if before else text)
    count = int(re.search(r'\[Function; (\d+)\]', read(place, COUNTED[0]))[1])
    for name in COUNTED:
        text = read(place, name)
        write(place, name, re.sub(rf'(\[Function; |k-lt|\(len\(\w+\), ){count}', rf'\g<1>{count + 1}', text))


def places(rows):
    """A pattern for each place that a row names; a place after the name of a crate is within that crate."""
    for row in rows.splitlines():
        crate = ''
        for told in re.findall(r'`([^`]+)`', row.split(' | ')[0]):
            if told.startswith('trac_'):
                crate, _, within = told.partition('/')
            else:
                within = told if told.split('/')[0] in ('src', 'specs', 'proofs') else ''
            path = f'crates/{crate}/{within}' if within else '' if told == crate else told
            if path:
                yield re.compile(re.sub('MODULE|FUNCTION|CRATE', '[^/]+', re.escape(path.rstrip('/'))) + '(/|$)')


def untold(place):
    """The files that are changed and that no row names."""
    rows = ROWS.search(read(place, 'docs/ARCHITECTURE.md'))[1]
    if rows.count('\n') > 9:
        raise SystemExit('new_function: there are more than nine rows')
    told = list(places(rows))
    return {name for name in [*COUNTED, *(name for name, _, _ in ADDED)] if not any(each.match(name) for each in told)}


def run(place, *words, said=None):
    done = subprocess.run(words, cwd=place, input=said, capture_output=said is not None, text=True, check=True)
    return done.stdout


def find(place):
    """Says where the function isn't found."""
    library = glob.glob(os.path.join(place, 'build', 'libtrac.so.*'))[0]
    found = {
        'the program': run(place, 'build/trac', said="[#(id,one,two)#(ID,three)]'") == '[onethree]',
        'the terminal': 'no function' not in run(place, 'build/trac_terminal', said="#(ps,#(id,one))'\n"),
        'the editors': all('|id|' in read(place, f'editors/{name}') for name in (
            'gtksourceview/trac.lang', 'nano/trac.nanorc', 'vim/syntax/trac.vim')),
        'the fuzzers': '"id,"' in read(place, 'checks/fuzz/words.dict'),
        'the page': 'The value is X.'.encode() in module_of(place),
        'the names': 'id' in dict(functions(library)),
    }
    return sorted(name for name, is_found in found.items() if not is_found)


def module_of(place):
    with open(os.path.join(place, 'hosts', 'wasm', 'trac.wasm'), 'rb') as file:
        return file.read()


def main():
    with tempfile.TemporaryDirectory() as place:
        names = subprocess.run(['git', 'ls-files', '-z'], cwd=TOP, capture_output=True, text=True, check=True).stdout
        for name in names.split('\0')[:-1]:
            os.makedirs(os.path.dirname(os.path.join(place, name)), exist_ok=True)
            shutil.copy2(os.path.join(TOP, name), os.path.join(place, name), follow_symlinks=False)
        if others := untold(place):
            raise SystemExit(f'new_function: no row of ARCHITECTURE names {", ".join(sorted(others))}')
        run(place, 'git', 'init', '-q')
        add(place)
        for name in ('trac_language', 'trac_functions'):
            run(os.path.join(place, 'crates', name), 'rt', 'fmt')
        run(place, sys.executable, 'conformance/statements.py')
        for name in ('trac_laws', 'trac_tracer'):
            run(place, sys.executable, 'checks/progress.py', name, 'rt', 'check')
        run(place, 'make', 'generate')
        run(place, 'make', 'rust', 'editors', 'all', 'page', 'npm')
        run(place, sys.executable, '-m', 'pytest', '-q', 'checks/test_functions.py', 'checks/test_editors.py',
            'checks/test_cheat_sheet.py', 'checks/test_generated.py', 'checks/test_conformance.py',
            'checks/test_edits.py', 'checks/test_npm.py')
        if missing := find(place):
            raise SystemExit(f'new_function: it is not in {", ".join(missing)}')
    print('new_function: it is found everywhere')


if __name__ == '__main__':
    main()
