"""Makes random WebAssembly modules, as text, from given instructions. They resemble the engine: a stack that grows down
from where the tables begin, tables with words that are addresses of tables, and functions over memory that their caller
provides. No result depends on an address.

Each function takes the address of 256 bytes, an i32 and an i64, and gives an i64. The first function of a module only
reads its bytes, so that it can be called with a table. Each divisor is sometimes 0, and each loop ends."""
import re
import textwrap

BUFFER, WORDS = 256, 8
EDGES = {kind: [0, 1, 2, 7, 8, 15, 16, 31, 32, 63, 64, 127, 128, 255, 256, 65535, 65536, 1 << 31, (1 << 31) - 1,
                (1 << 32) - 1, *more] for kind, more in (
                    ('i32', []), ('i64', [1 << 32, (1 << 63) - 1, 1 << 63, (1 << 64) - 1, (1 << 64) - 16]))}
TWO, COMPARED = 'add sub mul and or xor shl shr_s shr_u', 'eq ne lt_s lt_u gt_s gt_u le_s le_u ge_s ge_u'
DIVIDED = 'div_s div_u rem_s rem_u'
KINDS = ('i32', 'i64')
# The operands and the result of each instruction that makes a number.
NUMBERS = {f'{kind}.{name}': ((kind, kind), kind) for kind in KINDS for name in f'{TWO} {DIVIDED}'.split()}
NUMBERS |= {f'{kind}.{name}': ((kind, kind), 'i32') for kind in KINDS for name in COMPARED.split()}
NUMBERS |= {f'{kind}.{name}': ((kind,), made) for kind in KINDS for name, made in (
    ('eqz', 'i32'), ('clz', kind), ('extend8_s', kind))}
NUMBERS |= {'i32.wrap_i64': (('i64',), 'i32'), 'i64.extend_i32_u': (('i32',), 'i64')}
ACCESS = re.compile(r'(i32|i64)\.(load|store)(8|16|32|)(?:_[su])?')
# The part that all modules have.
LOCALS = ('buffer', 'a', 'b', 'x', 'y', 'n0', 'n1', 'p', 'q', 'frame')
CONTROL = frozenset('''block loop if else end br br_if br_table return call unreachable drop select local.get local.set
    local.tee global.get global.set memory.copy memory.fill i32.const i64.const'''.split())


def can_test(name):
    """Whether modules with this instruction can be made."""
    return name in NUMBERS or name in CONTROL or ACCESS.fullmatch(name) is not None


class Maker:
    """Makes a module. `counts` has how often each instruction was used before: rare ones are used more often."""

    def __init__(self, random, number, instructions, counts):
        self.random, self.number, self.counts = random, number, counts
        self.numbers = {kind: [name for name in instructions if NUMBERS.get(name, ('', ''))[1] == kind]
                        for kind in KINDS}
        found = [name for name in instructions if ACCESS.fullmatch(name)]
        self.loads = {kind: [name for name in found if name.startswith(kind + '.load')] for kind in KINDS}
        self.stores = [name for name in found if '.store' in name]
        self.functions, self.labels, self.made, self.loops = [], [], 0, 0
        self.frame = self.only_reads = 0
        self.words_at = 8 * random.randint(36, 48)

    def pick(self, names):
        [name] = self.random.choices(names, [1 / (1 + self.counts[name]) ** 2 for name in names])
        self.counts[name] += 1
        return name

    def chance(self, of):
        return not self.random.randrange(of)

    # ---- Numbers

    def number_of(self, kind, depth=0):
        """The text of code that makes a number."""
        if depth > 4 or self.chance(4):
            return self.leaf(kind)
        make = self.random.choice([self.operation] * 6 + [self.load] * 3 + [
            self.compared, self.selected, self.teed, self.block_value, self.if_value, self.called, self.difference])
        return make(kind, depth + 1)

    def leaf(self, kind):
        if self.chance(2):
            number = self.random.choice(EDGES[kind]) if self.chance(2) else self.random.getrandbits(int(kind[1:]))
            return f'({kind}.const {number})'
        return f"(local.get ${self.random.choice('axy' if kind == 'i32' else 'bpq')})"

    def reckoned(self, kind, levels):
        """An expression that makes a number from numbers, with a given number of levels."""
        return self.operation(kind, levels - 1, self.reckoned) if levels else self.leaf(kind)

    def operation(self, kind, depth, make=None):
        name = self.pick(self.numbers[kind])
        given = [(make or self.number_of)(one, depth) for one in NUMBERS[name][0]]
        if '.div' in name or '.rem' in name:
            divisors = [f'({kind}.const {self.random.choice((1, 3, 10, 100, (1 << int(kind[1:])) - 1))})',
                        f'({kind}.or {given[1]} ({kind}.const 1))', given[1] if self.chance(8) else self.leaf(kind)]
            given[1] = self.random.choices(divisors, (5, 3, 2))[0]
        return f"({name} {' '.join(given)})"

    def compared(self, kind, _=0):
        """A computation from two comparisons, so short that C has it in one expression."""
        whole = [name for name in self.numbers['i32'] if NUMBERS[name][0] == ('i32', 'i32')]
        tests = [name for name in whole if name.split('.')[1] in COMPARED.split()]
        sums = [name for name in whole if name.split('.')[1] in TWO.split()]
        texts = [f"({self.pick(tests)} (local.get ${self.random.choice('axy')}) (i32.const {self.random.randrange(3)}))"
                 for _ in range(2)]
        text = f"({self.pick(sums)} {' '.join(texts)})"
        if kind == 'i64':
            return f'(i64.extend_i32_u {text})'
        return f"({self.pick(sums)} {text} (i32.const {self.random.choice((1, 31))}))"

    def selected(self, kind, depth):
        return f"(select {self.number_of(kind, depth)} {self.number_of(kind, depth)} {self.number_of('i32', depth)})"

    def teed(self, kind, depth):
        return f"(local.tee ${self.random.choice('xy' if kind == 'i32' else 'pq')} {self.number_of(kind, depth)})"

    def block_value(self, kind, depth):
        """A block that a branch may leave with a value."""
        self.made += 1
        name, inside = f'$v{self.made}', self.statements(1, depth + 2)
        return (f"(block {name} (result {kind}) {inside} (drop (br_if {name} {self.number_of(kind, depth)} "
                f"{self.number_of('i32', depth)})) {self.number_of(kind, depth)})")

    def if_value(self, kind, depth):
        first, second = (f'{self.statements(1, depth + 2)} {self.number_of(kind, depth)}' for _ in range(2))
        return f"(if (result {kind}) {self.number_of('i32', depth)} (then {first}) (else {second}))"

    def called(self, kind, depth):
        if not self.functions or depth > 3:
            return self.leaf(kind)
        name = self.random.choice(self.functions)
        place = self.place(0, 0) if name.endswith('f0') and self.chance(2) else '(local.get $buffer)'
        if name.endswith('f0') and self.chance(3):
            place = f"(i64.add (i64.const {{tables}}) {self.below(24, depth)})"
        elif self.frame and not self.only_reads and self.chance(3):
            place = '(local.get $frame)'
        text = f"(call ${name} {place} {self.number_of('i32', depth)} {self.number_of('i64', depth)})"
        return text if kind == 'i64' else f'(i32.wrap_i64 {text})'

    def difference(self, kind, depth):
        """The difference of two places."""
        place = '(i64.const {tables})' if self.chance(2) or not self.frame else '(local.get $frame)'
        text = f'(i64.sub (i64.add {place} {self.below(40, depth)}) {place})'
        if place.startswith('(local'):
            text = f'(i64.sub (i64.add {place} (i64.const {self.random.randrange(64)})) {place})'
        return text if kind == 'i64' else f'(i32.wrap_i64 {text})'

    # ---- Places

    def below(self, most, depth):
        """A number from 0 to the greatest mask that isn't above a number."""
        mask = (1 << (most + 1).bit_length() - 1) - 1
        if self.chance(4) and mask >= 255 and 'i64.load8_u' in self.loads['i64']:
            return '(i64.load8_u (local.get $buffer))'
        masked = f"(i64.and {self.number_of('i64', depth)} (i64.const {mask}))"
        return masked if self.chance(2) else f'(local.tee $q {masked})'

    def place(self, size, depth):
        """A place with room for a number of bytes, in the caller's memory or in the frame."""
        place = '$frame' if self.frame and self.chance(3) else '$buffer'
        if self.chance(4):
            return f'(local.get {place})'
        return f'(i64.add (local.get {place}) {self.below(BUFFER // 4 - size, depth)})'

    def load(self, kind, depth):
        name = self.pick(self.loads[kind])
        if self.chance(3):
            return self.load_of_tables(kind, name, depth)
        return f"({name} offset={self.random.randrange(BUFFER // 2)} {self.place(8, depth)})"

    def load_of_tables(self, kind, name, depth):
        """A load from the bytes of the tables, of one of their numbers, or relative to one of their addresses, which
        may be computed from a place before the first of them."""
        row = f"(i64.and {self.number_of('i64', depth)} (i64.const {WORDS - 1}))"
        words, before = self.words_at, self.random.choice((0, 0, 1, 3))
        if self.chance(3) and kind == 'i64':
            return f'(i64.load offset={{tables+{words + 8 * WORDS}}} (i64.shl {row} (i64.const 3)))'
        if self.chance(2):
            place = f'(i64.shl (i64.add {row} (i64.const {before})) (i64.const 3))' if before else (
                f'(i64.shl {row} (i64.const 3))')
            address = f'(i64.load offset={{tables+{words - 8 * before}}} {place})'
            if before and self.chance(3):
                address = f'(i64.load (i64.add (i64.const {{tables+{words - 8 * before}}}) {place}))'
            return f'({name} offset={self.random.randrange(8)} {address})'
        first = self.random.choice((0, self.words_at + 16 * WORDS))
        if self.chance(3):
            return f'({name} (i64.const {{tables+{first + self.random.randrange(32)}}}))'
        if self.chance(2):
            return f'({name} (i64.add (i64.const {{tables+{first}}}) {self.below(32, depth)}))'
        return (f'({name} offset={{tables+{first + self.random.randrange(16)}}} '
                f'{self.below(32 if first else 255, depth)})')

    # ---- Statements

    def statements(self, count, depth):
        return ' '.join(self.statement(depth) for _ in range(self.random.randint(1, count)))

    def statement(self, depth):
        simple = [self.store, self.store, self.assign, self.kept, self.kept, self.dropped, self.copied, self.filled,
                  self.left, self.trapped]
        nested = [self.block, self.loop, self.choice, self.table] if depth < 5 else []
        return self.random.choice(simple + nested)(depth + 1)

    def store(self, depth):
        name = self.pick(self.stores)
        if self.only_reads:
            return self.assign(depth)
        offset = f'offset={self.random.randrange(BUFFER // 2)}'
        return f'({name} {offset} {self.place(8, depth)} {self.number_of(name[:3], depth)})'

    def kept(self, _):
        """Stores a value computed from the caller's numbers alone, where the caller sees it."""
        number = self.compared('i64') if self.chance(3) else self.reckoned('i64', self.random.randint(2, 4))
        if self.only_reads:
            return f'(local.set $q (i64.add (local.get $q) {number}))'
        return f'(i64.store offset={8 * self.random.randrange(BUFFER // 16, BUFFER // 8)} (local.get $buffer) {number})'

    def assign(self, depth):
        kind = self.random.choice(KINDS)
        return f"(local.set ${self.random.choice('xya' if kind == 'i32' else 'pqb')} {self.number_of(kind, depth)})"

    def dropped(self, depth):
        return f'(drop {self.number_of(self.random.choice(KINDS), depth)})'

    def copied(self, depth):
        if self.only_reads:
            return self.dropped(depth)
        source = self.place(32, depth)
        if self.chance(3):
            source = f'(i64.add (i64.const {{tables}}) {self.below(16, depth)})'
        return f'(memory.copy {self.place(32, depth)} {source} {self.below(40, depth)})'

    def filled(self, depth):
        if self.only_reads:
            return self.dropped(depth)
        return f"(memory.fill {self.place(32, depth)} {self.number_of('i32', depth)} {self.below(40, depth)})"

    def condition(self, depth):
        return self.number_of('i32', depth) if self.chance(2) else (
            f"(i32.eq (i32.and {self.number_of('i32', depth)} (i32.const 7)) (i32.const {self.random.randrange(8)}))")

    def left(self, depth):
        """Leaves a block, repeats a loop, or returns."""
        if self.labels and not self.chance(4):
            label = self.random.choice(self.labels)
            if self.chance(2):
                return f'(br_if {label} {self.condition(depth)})'
            return f'(if {self.condition(depth)} (then (br {label}) {self.statements(1, depth + 2)}))'
        given = self.number_of('i64', depth + 2)
        return f'(if {self.rare(depth)} (then (local.set $p {given}) {self.restored()} (return (local.get $p))))'

    def rare(self, depth):
        return f"(i32.eq (i32.and {self.number_of('i32', depth)} (i32.const 31)) (i32.const 19))"

    def trapped(self, depth):
        return f'(if {self.rare(depth)} (then (unreachable)))'

    def within(self, label, depth):
        self.labels.append(label)
        text = self.statements(3, depth)
        self.labels.pop()
        return text

    def name(self):
        self.made += 1
        return f'$l{self.made}'

    def block(self, depth):
        name = self.name()
        return f'(block {name} {self.within(name, depth)})'

    def loop(self, depth):
        """A loop of a few iterations, repeated in one of several ways."""
        if self.loops == 2:
            return self.block(depth)
        counter, name, end = f'$n{self.loops}', self.name(), self.name()
        self.loops += 1
        self.labels.append(end)
        inside = self.within(name, depth)
        self.labels.pop()
        self.loops -= 1
        return (f'(local.set {counter} (i32.const {self.random.randint(1, 4)})) (block {end} (loop {name} '
                f'(br_if {end} (i32.eqz (local.get {counter}))) (local.set {counter} (i32.sub (local.get {counter}) '
                f'(i32.const 1))) {inside} (br {name})))')

    def choice(self, depth):
        other = f'(else {self.statements(2, depth)})' if self.chance(2) else ''
        return f'(if {self.condition(depth)} (then {self.statements(2, depth)}) {other})'

    def table(self, depth):
        """Blocks, one of which a table of branches leaves."""
        names = [self.name() for _ in range(self.random.randint(1, 3))]
        targets = self.random.choices(names + self.labels, k=self.random.randint(2, 6))
        of = self.number_of('i32', depth)
        if not self.chance(3):
            of = f'(i32.and {of} (i32.const 7))'
        text = f"(br_table {' '.join(targets)} {of}) {self.statements(1, depth) if self.chance(3) else ''}"
        for name in names:
            text = f'(block {name} {text}) {self.statements(1, depth)}'
        return text

    # ---- Functions

    def lowered(self):
        """Allocates a stack frame, in one of the shapes that compilers use."""
        if not self.frame:
            return ''
        by = self.random.choice((f'(i64.sub (global.get $__stack_pointer) (i64.const {self.frame}))',
                                 f'(i64.add (global.get $__stack_pointer) (i64.const -{self.frame}))'))
        asked = self.random.choice((
            '', '(if (i64.ge_s (global.get $__stack_pointer) (i64.const 16)) (then (local.set $x (i32.const 5))))',
            '(if (i64.le_s (global.get $__stack_pointer) (i64.const 15)) (then (unreachable)))'))
        return (f'(global.set $__stack_pointer (local.tee $frame {by})) {asked} '
                f'(memory.fill (local.get $frame) (local.get $a) (i64.const {self.frame}))')

    def restored(self):
        if not self.frame:
            return ''
        return f'(global.set $__stack_pointer (i64.add (local.get $frame) (i64.const {self.frame})))'

    def function(self, k):
        self.only_reads = k == 0
        self.frame = 0 if self.only_reads else self.random.choice((0, BUFFER, BUFFER + 16, BUFFER + 64))
        self.labels, self.loops = [], 0
        name = f'm{self.number}f{k}'
        body = f"{self.lowered()} {self.statements(3, 0)} {self.kept(0)} {self.statements(3, 0)} {self.kept(0)}"
        end = f"(local.set $p {self.number_of('i64')}) {self.restored()} (i64.add (local.get $p) (local.get $q))"
        self.functions.append(name)
        return (f'(func ${name} (export "{name}") (param i64 i32 i64) (result i64)\n'
                '(local i32 i32 i32 i32 i64 i64 i64)\n'
                + re.sub(r'(?<=local\....) \$(\w+)', lambda found: f' {LOCALS.index(found[1])}', f'{body} {end})'))

    def tables(self, at):
        """The bytes of the tables: numbers, addresses of numbers, more numbers."""
        random = self.random.__class__(self.number)
        words = [at + random.randrange(self.words_at - 24) for _ in range(WORDS)]
        lengths = [random.choice(EDGES['i64']) for _ in range(WORDS)]
        return b''.join((random.randbytes(self.words_at), *(word.to_bytes(8, 'little') for word in words + lengths),
                         random.randbytes(72)))

    def module(self):
        """The text of the module, with places in the tables in braces."""
        return '\n'.join(self.function(k) for k in range(self.random.randint(2, 3)))


def placed(text, tables, at):
    """A module of these functions, whose tables, `tables(at)`, are at a place."""
    table = tables(at)
    text = re.sub(r'\{tables(?:\+(\d+))?\}', lambda found: str(at + int(found[1] or 0)), text)
    data = ''.join(f'\\{byte:02x}' for byte in table)
    return textwrap.dedent(f'''\
        (module (memory (export "memory") i64 5)
        (global $__stack_pointer (export "stack") (mut i64) (i64.const {at}))
        (global $end i64 (i64.const {at + len(table)}))
        ''') + f'{text}\n(data (i64.const {at}) "{data}"))\n'
