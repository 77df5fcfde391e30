"""The sources of the functions: where each stands, what its docstring says first, and the names of its parameters."""
import os
import re
from itertools import combinations

TOP = os.path.join(os.path.dirname(os.path.abspath(__file__)), '..', '..', '..')
HEAD = re.compile(r'^ *(?:pub(?:\([a-z]+\))? )?(?:const |unsafe |extern "C" )*fn (\w+)', re.MULTILINE)
OWNER = re.compile(r'^(?:unsafe )?(impl|trait)\b(?:<[^{]*?>)? *([^{]*?)\{?$')
SCALARS = {**dict.fromkeys(('u8', 'u16', 'u32', 'i8', 'i16', 'i32', 'bool', 'char'), 'i32'),
           **dict.fromkeys(('u64', 'i64', 'usize', 'isize'), 'i64')}
# Words that C or the engine's own text has for something else.
TAKEN = frozenset('''auto bool break case char class const continue copy default delete do double else enum extern fill
    float for frame friend goto if inline int long new operator private protected public register restrict return room
    short signed sizeof static struct switch tables template this trap try typedef typename union unsigned using virtual
    void volatile while word asm and or not xor bool true false'''.split())


class Source:
    """A function in a source: its crate, its file and line there, the text of its docstring, whether it is to be a part
    of those that call it, its parameters and their types, and the type of its result."""

    def __init__(self, place, above, params, result):
        self.place, self.doc, self.params, self.result = place, doc_of(above), params, result
        self.is_part = '#[inline(always)]' in above


def crates():
    """The crates in their order: a later one stands on earlier ones."""
    with open(os.path.join(TOP, 'crates.txt'), encoding='utf-8') as file:
        return [re.match(r'[\w-]+', line)[0] for line in file if re.match(r'\w', line)]


def files_of(crate):
    folder = os.path.join(TOP, 'crates', crate, 'src')
    for root, folders, names in os.walk(folder):
        folders.sort()
        for name in sorted(names):
            if name.endswith('.rt'):
                yield os.path.join(root, name), os.path.relpath(os.path.join(root, name), folder)


def words_of(*parts):
    """The parts of a path as the name of a function in C has them."""
    return re.sub(r'\W+', '_', '_'.join(filter(None, parts))).strip('_')


def split_at_commas(text):
    """The parts between commas that stand in no parentheses."""
    parts, depth = [''], 0
    for letter in re.sub(r'->', '  ', text):
        depth += (letter in '(<[{') - (letter in ')>]}')
        if letter == ',' and not depth:
            parts.append('')
        else:
            parts[-1] += letter
    return [part.strip() for part in parts if part.strip()]


def signature(text):
    """The parameters of a function, pairs of a name and a type, and the type of its result, of the text from its name
    on."""
    begin, depth = text.index('('), 0
    for at in range(begin, len(text)):
        depth += (text[at] == '(') - (text[at] == ')')
        if not depth:
            break
    found = re.match(r' *-> *([^\n{]+?) *(?:\bwhere\b.*)?[\n{;]', text[at + 1:] + '\n')
    pairs = [part.rpartition('self')[:2] if re.fullmatch(r"&?('\w+ )?(mut )?self", part) else part.split(':', 1)
             for part in split_at_commas(text[begin + 1:at])]
    return [(('self', '&' if kind.startswith('&') else 'Self') if name == 'self' else
             (re.sub(r'\bmut ', '', name).strip(), kind.strip()))
            for name, kind in (pair if pair[1] != 'self' else ('self', pair[0]) for pair in pairs)], (
                found[1].strip() if found else '')


def above_of(lines, at):
    """The docstring and the attributes above a line."""
    begin = at
    while begin and re.match(r' *(///|#\[)', lines[begin - 1]):
        begin -= 1
    return [line.strip() for line in lines[begin:at]]


def doc_of(above):
    """The first part of a docstring."""
    found = [line[3:].strip() for line in above if line.startswith('///')]
    return ' '.join(found[:found.index('')] if '' in found else found)


class Sources:
    """The functions of the crates, by the names that C has for them; and the fields of structs."""

    def __init__(self):
        self.functions, self.fields, self.crates = {}, {}, crates()
        for number, crate in enumerate(self.crates):
            for path, name in files_of(crate):
                module = re.sub(r'(^|/)(lib|mod|main)$', '', name[:-3])
                with open(path, encoding='utf-8') as file:
                    text = file.read()
                add_sources(self.functions, text, (number, crate, name), crate.removeprefix('trac_'), module)
                self.add_structs(text)

    def add_structs(self, text):
        for name, body in re.findall(r'^pub(?:\([a-z]+\))? struct (\w+) \{(.*?)^\}', text, re.MULTILINE | re.DOTALL):
            # A name that two crates have is that of the lower one.
            self.fields.setdefault(name, [(field, SCALARS.get(kind.strip())) for field, kind in re.findall(
                r'^ +(?:pub(?:\([a-z]+\))? )?(\w+): ([^,\n]+),', body, re.MULTILINE)])

    def of(self, name):
        """The source of a function, None where it has none."""
        name = re.sub(r'(?<=[A-Za-z_])\d$', '', name) if name not in self.functions else name
        return self.functions.get(name)

    def slots(self, name, kind):
        """The parameters that one of the source becomes in WebAssembly: pairs of a name and a type, None of one that
        isn't known. A slice is a place and a length, and what has one or two numbers is these."""
        if re.match(r"&('\w+ )?(mut )?(\[|str\b)", kind):
            return [(name, 'i64'), (f'{name}_len', 'i64')]
        if kind.startswith(('&', '*')):
            return [(name, 'i64')]
        fields = self.fields.get(kind, ())
        if 0 < len(fields) <= 2 and all(type_of for _, type_of in fields):
            return [(f'{name}_{field}', type_of) for field, type_of in fields]
        return [(name, SCALARS.get(kind, 'i64' if len(fields) > 2 else None))]

    def names(self, name, kinds, has_result):
        """The names of a function's parameters, whose types in WebAssembly are these, None where they can't be told:
        one that the module doesn't need isn't there."""
        source = self.of(name)
        if not source:
            return None
        slots = [slot for pair in source.params for slot in self.slots(*pair)]
        if source.result and not has_result:
            slots.insert(0, ('result', 'i64'))
        fitting = [chosen for chosen in combinations(slots, len(kinds))
                   if all(kind in (None, wanted) for (_, kind), wanted in zip(chosen, kinds))]
        names = [one + '_' * (one in TAKEN) for one, _ in fitting[0]] if len(fitting) == 1 else []
        is_whole = len(names) == len(set(names)) == len(kinds) and all(map(str.isidentifier, names))
        return names if is_whole else None


def add_sources(found, text, place, crate, module):
    """Adds the functions of a file. What belongs to a type of another file goes by that too."""
    lines, owners = text.split('\n'), ['']
    for at, line in enumerate(lines):
        owner = OWNER.match(line)
        if owner:
            owners = owners_of(owner[1], owner[2])
        elif line.startswith('}'):
            owners = ['']
        head = HEAD.match(line)
        if head:
            rest = '\n'.join(lines[at:at + 12])
            source = Source((*place, at + 1), above_of(lines, at), *signature(rest[rest.index(head[1]):]))
            for one in owners:
                found.setdefault(words_of(crate, module, one, head[1]), source)
                if one:
                    found.setdefault(words_of(crate, snake(owners[-1]), one, head[1]), source)
            if head[1].startswith('trac_'):
                found.setdefault(head[1].removeprefix('trac_'), source)


def snake(name):
    """The name of the file that has a type."""
    return re.sub(r'(?<=.)([A-Z])', r'_\1', name).lower()


def owners_of(word, text):
    """The names that the owner of a function has in those of C."""
    text = re.sub(r"<[^<>]*(<[^<>]*>)?[^<>]*>", '', text).split(' where ')[0].strip()
    if word == 'trait' or ' for ' not in text:
        return [text.split(':')[0].strip()]
    trait, kind = text.split(' for ')
    return [f'{kind.strip()}{trait.strip()}', kind.strip()]


def first_sentence(doc):
    """The first sentence of a docstring."""
    return re.match(r'.*?[.:](?= |$)|.*', doc)[0].replace('*/', '* /')
