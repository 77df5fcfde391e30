"""The text in C of the numbers of a tree.

A number of 64 bits is reckoned in as many as C has for an address, a `word`, where no others matter, else in a `u64`.
Each text has the type that C has for it, so that what is reckoned of two is reckoned in the type that it needs."""
from facts import NARROW, PLAIN, RECKONED, is_frame, is_small, known_of, most_of, signed, stack_answer
from tree import COMPARED, DIVIDED, bits_of, is_safe, refuse

# How tightly the parts of a text hold together: a lower number holds tighter.
ATOM, CAST, TIMES, SUM, SHIFT, COMPARISON, BITS, CHOICE = range(8)
BINARY = {'add': ('+', SUM), 'sub': ('-', SUM), 'mul': ('*', TIMES), 'and': ('&', BITS), 'or': ('|', BITS),
          'xor': ('^', BITS)}
OPPOSITE = {'==': '!=', '!=': '==', '<': '>=', '>=': '<', '>': '<=', '<=': '>'}


class Text:
    """A text of C, its type there, and how tightly it holds. The type of a small constant is `number`, that of a
    comparison `int`."""

    def __init__(self, text, kind, level=ATOM):
        self.text, self.kind, self.level = text, kind, level

    def within(self, level):
        """The text as a part of another that may have such parts as they are."""
        return self.text if self.level <= level else f'({self.text})'

    def cast(self, kind):
        return Text(f'({kind}){self.within(CAST)}', kind, CAST)

    def as_kind(self, kind):
        """The text in a type, for what is reckoned in that."""
        return self if self.kind == kind or self.kind == 'number' and kind == 'u32' else self.cast(kind)


def type_of(variable):
    return 'u32' if variable.kind == 'i32' else 'u64' if variable.is_wide else 'word'


class Texts:
    """The texts of the numbers of a function."""

    def __init__(self, module, functions, function):
        self.module, self.functions, self.function = module, functions, function

    def of(self, value, mode=None):
        """The text of a value, whose type is `mode` or one that this has room for: the value, or for a `word` its low
        bits."""
        mode = mode or ('u32' if value.kind == 'i32' else 'u64')
        if is_frame(known_of(value)):
            return self.frame(known_of(value)[1])
        if mode == 'u64' and value.name not in ('get', 'const', 'load', 'call') and is_small(value):
            mode = 'word'
        known = getattr(self, 'of_' + value.name, None)
        if known:
            return known(value, mode)
        if value.name in COMPARED:
            return self.comparison(value)
        if value.name in DIVIDED:
            return self.division(value, mode)
        if value.name in BINARY:
            return self.binary(value, mode)
        return self.shift(value, mode)

    def plain(self, value, mode=None):
        """The text of a value that stands by itself: what is assigned, or handed on."""
        found = self.of(value, mode)
        return found.cast(mode).text if mode in ('word', 'u32') and found.kind == 'u64' else found.text

    def assigned(self, variable, value):
        """The text of what a variable gets. gcc adds several bytes as bytes where it is told that no more matters."""
        text = self.plain(value, type_of(variable))
        is_long = value.name == 'add' and value.args[0].name == 'add'
        return f'(u8)({text})' if variable.is_byte and is_long else text

    def condition(self, value, is_not=False):
        """The text of a value as a condition, or of its opposite."""
        if value.name in COMPARED:
            return self.comparison(value, is_not)
        # what && may leave out is no call
        if value.name == 'and' and not is_not and value.kind == 'i32' and not value.args[1].is_call and all(
                most_of(arg) <= 1 for arg in value.args):
            return Text(' && '.join(self.condition(arg).within(COMPARISON) for arg in value.args), 'int', CHOICE)
        found = self.of(value)
        if value.name == 'select':
            # tcc 0.9.27 takes the wrong one by a choice between two constants
            return Text(f"{found.within(SUM)} {'=' if is_not else '!'}= 0u", 'int', COMPARISON)
        return Text(f'!{found.within(CAST)}', 'int', CAST) if is_not else found

    # ---- Variables, constants, places

    def frame(self, at):
        """A place of the stack."""
        place = self.function.frame + at
        return Text('frame', 'word') if not place else Text(f'frame + {place}u', 'word', SUM)

    def of_get(self, value, mode):
        variable = value.data
        kind = type_of(variable)
        found = Text(variable.name, kind)
        return found.cast('word') if mode == 'word' and kind == 'u64' else found

    def of_const(self, value, mode):
        number = value.data
        if number <= NARROW:
            return Text(f'{number}u', 'number')
        return Text(f'{number}ull', 'u64') if mode == 'u64' else Text(f'(word){number}ull', 'word', CAST)

    def of_table(self, value, _):
        return Text(self.module.address(f'@{value.data}'), 'word', SUM)

    def place(self, value, offset='0'):
        """The text of a place: a number, and a fixed one that is added to it."""
        number = int(offset.strip('@'))
        if is_frame(known_of(value)):
            return self.frame(known_of(value)[1] + number).text
        if value.name == 'const' and '@' not in offset:
            return self.of(value, 'word').as_kind('word').within(SUM) + (f' + {number}u' if number else '')
        if value.name == 'add' and value.args[1].name == 'const' and '@' not in offset and (
                signed(value.args[1].data) + number > 0):
            value, number = value.args[0], signed(value.args[1].data) + number
        text = self.of(value, 'word').as_kind('word')
        if '@' in offset:
            return f'{text.within(SUM)} + {self.module.address(offset)}'
        return f'{text.within(SUM)} + {number}u' if number else text.text

    # ---- Memory and calls

    def of_load(self, value, mode):
        bits, sign, offset = value.data
        where = self.place(value.args[0], offset)
        is_address = self.looks_at(value.args[0], offset, bits // 8)
        if is_address and bits < 64:
            refuse(f'a part of an address is loaded from {where}')
        if is_address is not False and bits == 64:
            found = Text(f'table64({where})', 'u64')
            return found.cast('word') if mode == 'word' else found
        if is_address is None:
            where = f'no_address({where}, {bits // 8}u)'
        if bits == 64:
            return Text(f'load64({where})', 'u64') if mode == 'u64' else Text(f'load_word({where})', 'word')
        if sign == '_s':
            return Text(f'(u32)(i32)(i{bits})load{bits}({where})', 'u32', CAST)
        return Text(f'load{bits}({where})', 'u32')

    def looks_at(self, place, offset, size):
        """Whether a load is of one of those words of the tables that are addresses; None: it may be."""
        number, most = int(offset.strip('@')), most_of(place)
        if place.name == 'table' and '@' not in offset:
            number, most = number + place.data, 0
        elif '@' not in offset:
            return None if known_of(place) > PLAIN else False
        elif known_of(place) > PLAIN:
            refuse(f'an address behind another, {offset}')
        return self.module.has_address(number, most, size)

    def handed_on(self, value, mode):
        """The text of a value that the function loses sight of. One that is reckoned from an address of the tables
        isn't to point among those words there that are addresses."""
        if known_of(value) == RECKONED:
            return f'no_address({self.plain(value, "word")}, 1u)'
        return self.plain(value, mode)

    def of_call(self, value, mode):
        callee = self.functions[value.data]
        given = ', '.join(self.handed_on(arg, type_of(param)) for arg, param in zip(value.args, callee.params))
        kind = 'u32' if value.kind == 'i32' else 'u64' if callee.is_wide else 'word'
        found = Text(f'{callee.c_name}({given})', kind)
        return found.cast('word') if mode == 'word' and kind == 'u64' else found

    def move(self, statement):
        """The text of what copies or fills memory."""
        to, source, count = statement.values
        many = self.plain(count, 'word')
        if statement.name == 'fill':
            return f'fill({self.place(to)}, {self.plain(source)}, {many});'
        place = self.place(source)
        place = f'no_address({place}, {many})' if known_of(source) > PLAIN else place
        return f'copy({self.place(to)}, {place}, {many});'

    # ---- Numbers

    def binary(self, value, mode):
        sign, level = BINARY[value.name]
        left, right = (self.of(arg, mode) for arg in value.args)
        whole, number = bits_of(value.kind) + 1, value.args[1].data if value.args[1].name == 'const' else None
        if level == SUM and number is not None and number >= whole // 2:
            # a negative constant is added or subtracted as its opposite
            sign, right = '+-'[sign == '+'], Text(f"{whole - number}u{'ll' * (whole - number > NARROW)}", 'number')
        if mode not in (left.kind, right.kind):
            left = left.as_kind(mode)
        inner = (level, TIMES) if level == SUM else (CAST, CAST)
        return Text(f'{left.within(inner[0])} {sign} {right.within(inner[1])}', mode, level)

    def shift(self, value, mode):
        """A shift, by as many bits as the number has at the most. What is moved by more bits than an address has, or by
        a number that isn't known, is moved in 64."""
        bits, count = int(value.kind[1:]), value.args[1]
        is_near = count.name == 'const' and count.data % bits < 32
        if mode == 'word' and not (is_near and (value.name == 'shl' or (
                value.name == 'shr_u' and is_small(value.args[0])))):
            return self.shift(value, 'u64').cast('word')
        by = f'{count.data % bits}' if count.name == 'const' else f'({self.of(count).within(CAST)} & {bits - 1}u)'
        left = self.of(value.args[0], mode)
        if not (value.name == 'shr_u' and is_near and left.kind in ('u32', 'word')):
            left = left.as_kind(mode)
        if value.name == 'shr_s':
            return Text(f'(u{bits})((i{bits}){left.within(CAST)} >> {by})', f'u{bits}', CAST)
        return Text(f"{left.within(CAST)} {'<<' if value.name == 'shl' else '>>'} {by}", left.kind, SHIFT)

    def comparison(self, value, is_not=False):
        """A comparison, whose type in C is that of an int."""
        answer = stack_answer(value)
        if answer is not None:
            return Text(f'{int(answer != is_not)}u', 'number')
        sign, is_signed = COMPARED[value.name]
        sign = OPPOSITE[sign] if is_not else sign
        a, b = value.args
        if value.name == 'eq' and b.name == 'const' and b.data == 0 and a.name in COMPARED:
            return self.comparison(a, not is_not)
        kind = int(a.kind[1:])
        mode = 'u32' if kind == 32 else 'word' if is_small(a) and is_small(b) and is_signed != 's' else 'u64'
        left, right = (self.compared(arg, mode, is_signed == 's') for arg in (a, b))
        return Text(f'{left} {sign} {right}', 'int', COMPARISON)

    def compared(self, value, mode, is_signed):
        """What is compared."""
        if not is_signed:
            text = self.of(value, mode)
            return text.within(SUM) if text.kind != 'int' else text.as_kind('u32').within(SUM)
        kind = f'i{value.kind[1:]}'
        if value.name == 'const' and (value.data if value.data <= NARROW // 2 else -signed_of(value)) <= NARROW // 2:
            return f'{signed_of(value)}'
        return f'({kind}){self.of(value, mode).within(CAST)}'

    def division(self, value, mode):
        """A division. By a number that isn't known it is C's function that tests the divisor."""
        bits, sign = int(value.kind[1:]), value.name[-1]
        action = value.name[:-2]
        is_word = mode == 'word' and sign == 'u' and all(map(is_small, value.args))
        wide = 'u32' if bits == 32 else 'word' if is_word else 'u64'
        left, right = (self.of(arg, wide) for arg in value.args)
        if not is_safe(value.args[1]):
            found = Text(f'{action}{bits}_{sign}({left.text}, {right.text})', 'u32' if bits == 32 else 'u64')
        elif sign == 's':
            left, right = (f'(i{bits}){one.within(CAST)}' for one in (left, right))
            found = Text(f"(u{bits})({left} {'/' if action == 'div' else '%'} {right})", f'u{bits}', CAST)
        else:
            left = left.as_kind(wide) if left.kind != 'u32' else left
            sign = '/' if action == 'div' else '%'
            found = Text(f'{left.within(CAST)} {sign} {right.within(CAST)}', left.kind, TIMES)
        return found.cast('word') if mode == 'word' and found.kind == 'u64' else found

    def of_select(self, value, mode):
        condition = self.condition(value.args[0])
        first, second = (self.of(arg, mode) for arg in value.args[1:])
        kinds = {first.kind, second.kind}
        kind = next((one for one in ('u64', 'word', 'u32') if one in kinds), 'u32')
        if kinds == {'int'}:
            kind = 'int'
        return Text(f'{condition.within(COMPARISON)} ? {first.within(SUM)} : {second.within(SUM)}', kind, CHOICE)

    def of_wrap_i64(self, value, _):
        text = self.of(value.args[0], 'word')
        return text if text.kind in ('u32', 'number', 'int') else text.cast('u32')

    def of_extend_i32_u(self, value, _):
        text = self.of(value.args[0])
        return text.as_kind('u32') if text.kind == 'int' else text

    def of_extend8_s(self, value, _):
        return Text(f'(({self.of(value.args[0]).within(CAST)} & 255u) ^ 128u) - 128u', 'u32', SUM)

    def of_clz(self, value, mode):
        kind = 'u32' if value.kind == 'i32' else 'u64'
        return Text(f'clz{value.kind[1:]}({self.of(value.args[0], kind).text})', 'u32')


def signed_of(value):
    """A constant as a number with a sign."""
    return value.data - (bits_of(value.kind) + 1 if value.data > bits_of(value.kind) // 2 else 0)
