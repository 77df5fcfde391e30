"""The text of a module, as wasm2wat writes it: its functions, and the bytes that stand in it.

A module is read twice, linked to two places. A number that differs is an address of its tables."""
import re

from tree import STACK, refuse

TYPES = {'i32': 'u32', 'i64': 'u64'}
# What each export does around its work, which keeps a caller of its own from calling it from within: none here can.
GUARD = '$__rattle_enter'
GUARDS = [[['call', GUARD], ['if'], ['unreachable'], ['end']], [['i32.const', '0'], ['global.set', '$in_call']]]
ESCAPES = {'t': 9, 'n': 10, 'r': 13, '"': 34, "'": 39, '\\': 92}


class Head:
    """The types of a function's arguments and of its result."""

    def __init__(self, text):
        self.params, self.results = kinds_of(text, 'param'), kinds_of(text, 'result')
        if len(self.results) > 1:
            refuse(f'no translation of {text}')


def kinds_of(text, word):
    kinds = [kind for group in re.findall(rf'\({word}([^)]*)\)', text) for kind in group.split()]
    if set(kinds) - {*TYPES}:
        refuse(f'no translation of {text}')
    return kinds


def bytes_of(text):
    """The bytes of a data segment as wabt writes it."""
    found = re.findall(r'\\([0-9a-f]{2})|\\(.)|([^\\])', text)
    return bytes(int(code, 16) if code else ESCAPES[escaped] if escaped else ord(plain)
                 for code, escaped, plain in found)


class Module:
    """The parts of a module: types, functions, globals and data."""

    def __init__(self, lines):
        self.types, self.heads, self.names, self.starts = {}, {}, {}, {}
        self.functions, self.exports, self.data, self.addresses = [], [], [], {}
        body = None
        for line in lines:
            text = line.strip() if line.lstrip().startswith('(data ') else re.sub(r'\s*;;.*', '', line.strip())
            if text.startswith('('):
                body = self.part(text, body)
            elif text and body is not None:
                body.append(re.sub(r'\(;.*?;\)', '', text).split())
                body = self.end(body)
        # the tables begin where the stack ends
        self.first = self.starts[STACK]
        self.last = max(self.starts.values())

    def part(self, text, body):
        """Takes a line that begins a part. Gives the body that the next lines are of."""
        word = text.split()[0]
        if word == '(local':
            self.functions[-1][1].extend(kinds_of(text, 'local'))
            return body
        if word == '(type':
            self.types[re.search(r';(\d+);', text)[1]] = Head(text)
        elif word == '(func':
            return self.function(text)
        elif word == '(export' and '(func ' in text:
            self.exports.append(re.search(r'\(func (\S+?)\)', text)[1])
        elif word == '(global' and '(import' not in text:
            name, start = re.match(r'\(global (\S+) .* \(i\d\d.const @?(\d+)\)', text).groups()
            self.starts[name] = int(start)
        elif word == '(data':
            at, held = re.match(r'\(data \S+ \(i64.const @?(\d+)\) "(.*)"\)+$', text).groups()
            self.data.append((int(at), bytes_of(held)))
        elif word not in ('(module', '(memory', '(export'):
            refuse(f'no translation of {text}')
        return None

    def function(self, text):
        """Takes a function's head. Its name in C is what stands in the module, without types."""
        name = re.match(r'\(func (\S+) \(type', text)[1]
        head = self.heads[name] = self.types[re.search(r'\(type (\d+)\)', text)[1]]
        short = re.sub(r'<.*?>', '', re.sub(r'::<[^>]*>', '', name.strip('$')))
        short = re.sub(r'\W+', '_', short).strip('_').removeprefix('trac_')
        count = 1
        while short + str(count) * (count > 1) in self.names.values():
            count += 1
        self.names[name] = short + str(count) * (count > 1)
        self.functions.append((name, list(head.params), []))
        return self.functions[-1][2]

    def end(self, body):
        """Ends a body behind the instruction that has one parenthesis too many."""
        last = body[-1]
        if sum(word.count('(') - word.count(')') for word in last) >= 0:
            return body
        last[-1] = last[-1].rstrip(')') if '(' not in ''.join(last) else last[-1][:-1]
        if not last[-1]:
            last.pop()
        return None

    def address(self, text):
        at = int(text.strip('@')) - self.first
        if not 0 <= at <= self.last - self.first:
            refuse(f'{text} is no address of the tables')
        return f'TABLES + {at}u'

    def has_address(self, at, most, size):
        """Whether so many bytes, up to so far behind a place, are a word of the tables that is an address. None: they
        may be, or a part of one."""
        if not most and size == 8 and at in self.addresses:
            return True
        return None if any(at < word + 8 and word < at + most + size for word in self.addresses) else False

    def rows(self):
        """Where the words that are addresses begin and end, those that follow each other together."""
        rows = []
        for at in sorted(self.addresses):
            if rows and rows[-1][1] == at:
                rows[-1][1] += 8
            else:
                rows.append([at, at + 8])
        return [[place - self.first for place in row] for row in rows]

    def find_addresses(self, same):
        """Finds the words of the tables that are addresses of tables: those that differ in the same module at another
        place. Each is of what is no such word itself."""
        moved = same.first - self.first
        if self.first % 8 or moved % 8:
            refuse('the tables begin at no multiple of 8')
        for (at, held), (_, other) in zip(self.data, same.data):
            for word in range(-at % 8, len(held), 8):
                one, another = (int.from_bytes(data[word:word + 8], 'little') for data in (held, other))
                if one != another:
                    self.addresses[at + word] = one
                if another - one not in (0, moved):
                    refuse(f'the modules differ in the data at {at + word} by more than addresses')
            unlike = sum(a != b for a, b in zip(held, other))
            if unlike > sum(at <= place < at + len(held) for place in self.addresses) * 8:
                refuse(f'the modules differ in the data at {at} by more than addresses')
        for place, address in self.addresses.items():
            self.address(str(address))
            if self.has_address(address, 0, 1) is not False:
                refuse(f'the word at {place} is the address of an address')

    def table(self):
        """The bytes of the tables. What is an address there is how far that lies behind their beginning."""
        table = bytearray(self.last - self.first)
        for at, held in self.data:
            table[at - self.first:at - self.first + len(held)] = held
        for at, address in self.addresses.items():
            table[at - self.first:at - self.first + 8] = (address - self.first).to_bytes(8, 'little')
        return table


def without_guards(body):
    kept = []
    for words in body:
        kept.append(words)
        for guard in GUARDS:
            if kept[-len(guard):] == guard:
                del kept[-len(guard):]
    return kept


def lines_of(path):
    with open(path, encoding='latin-1') as file:
        return file.read().splitlines()


def marked(line, same, moved):
    """A line of the module, its number marked where it is an address. Only places of the module differ, each by as much
    as the tables are moved."""
    if line == same or line.lstrip().startswith(('(memory ', '(global ', '(data ')):
        return line
    found, other = (re.fullmatch(r'( *i64\.const |.* offset=)(\d+)(.*)', text) for text in (line, same))
    if not found or not other or found.group(1, 3) != other.group(1, 3) or int(other[2]) - int(found[2]) != moved:
        refuse(f'the modules differ by more than addresses: {line} and {same}')
    return f'{found[1]}@{found[2]}{found[3]}'


def module_of(lines, others):
    """The module of two texts, linked to two places."""
    if len(lines) != len(others):
        refuse('the modules differ in their lengths')
    same = Module(others)
    moved = same.first - Module(lines).first
    module = Module([marked(line, other, moved) for line, other in zip(lines, others)])
    module.find_addresses(same)
    module.heads.pop(GUARD, None)
    return module
