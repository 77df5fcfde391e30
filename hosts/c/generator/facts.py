"""What is known of the numbers of a tree: what each is to the stack and the tables, how great it can be, and whether
its bits above those of an address matter.

An address has 32 bits on some machines. There a number of 64 bits is kept in as many as an address where its use asks
no more: sums, products and moved bits of numbers have the right low bits if these have, places in memory have no
others, and a number that is known to be small enough has none."""
from tree import Assign, Move, Return, Store, bits_of, refuse
from webs import each

# What is known of a number. Less is known of the later ones: it lies so far behind the end of the stack that the
# function was handed, (0, that); it has nothing to do with places of the module; it may be an address of the tables
# that stands in the module; it may be reckoned from one.
FRAME, PLAIN, OF_TABLE, RECKONED = 0, (1, 0), (2, 0), (3, 0)
# The numbers that an address can be on every machine.
NARROW = (1 << 32) - 1
SUMS = frozenset('add sub mul and or xor'.split())


def joined(one, other):
    """What is known where it may be one or the other; None is nothing yet."""
    if one is None or other is None:
        return one or other
    return one if one == other else max(one, other, PLAIN)


def is_frame(known):
    return known is not None and known[0] == FRAME


def known_of(value):
    """What is known of a value, None where that rests on what isn't known yet."""
    if value.name == 'get':
        return value.data.known
    if value.name == 'table':
        return OF_TABLE
    if value.name == 'select':
        return joined(*map(known_of, value.args[1:]))
    if value.name in ('add', 'sub'):
        return moved(value)
    return PLAIN


def signed(number):
    return number - ((number >> 63) << 64)


def moved(value):
    """What is known of a sum or a difference. What a constant moves a place of the stack by is one too."""
    a, b = value.args
    left, right = known_of(a), known_of(b)
    if left is None or right is None:
        return None
    if value.name == 'add' and is_frame(right):
        a, b, left, right = b, a, right, left
    if is_frame(left) and b.name == 'const':
        return FRAME, left[1] + (signed(b.data) if value.name == 'add' else -signed(b.data))
    # between two places lies a number
    is_table = left > PLAIN or right > PLAIN if value.name == 'add' else left > PLAIN and right == PLAIN
    return RECKONED if is_table else PLAIN


def most_of(value):
    """The greatest number that a value can be."""
    whole, name = bits_of(value.kind), value.name
    if name == 'const':
        return value.data
    if name == 'get':
        return value.data.most
    if name == 'load':
        return whole if value.data[1] == '_s' else min(whole, (1 << value.data[0]) - 1)
    if name in ('table', 'call'):
        return whole
    most = [most_of(arg) for arg in value.args]
    if name == 'select':
        return max(most[1:])
    return min(whole, reckoned(name, value.args, most, whole))


def reckoned(name, args, most, whole):
    """The same of a number that is reckoned from others that are at most so great, unless it is greater than `whole`:
    then it may be any."""
    number = args[1].data if len(args) > 1 and args[1].name == 'const' else None
    found = whole
    if name == 'add':
        found = sum(most)
    elif name == 'mul':
        found = most[0] * most[1]
    elif name == 'and':
        found = min(most)
    elif name in ('or', 'xor'):
        found = (1 << max(most).bit_length()) - 1
    elif name == 'shl' and number is not None:
        found = most[0] << number % whole.bit_length()
    elif name == 'shr_u':
        found = most[0] >> (number or 0) % whole.bit_length()
    elif name == 'div_u':
        found = most[0] // (number or 1)
    elif name == 'rem_u' and number:
        found = min(most[0], number - 1)
    elif name in ('extend_i32_u', 'wrap_i64'):
        found = most[0]
    elif name == 'clz':
        found = whole.bit_length()
    elif len(args) == 2 and name not in ('sub', 'shl', 'shr_s', 'div_s', 'rem_s', 'rem_u'):
        found = 1
    return found if found <= whole or name == 'wrap_i64' else whole


def is_small(value):
    """Whether a number of 64 bits has none but those of an address."""
    return most_of(value) <= NARROW


def find_places(function):
    """Finds what the variables of a function are to the stack and the tables."""
    for param in function.params:
        param.known = PLAIN
    function.end_of_stack.known = (FRAME, 0)
    has_changed = True
    while has_changed:
        has_changed = False
        for statement in each(function.body):
            if isinstance(statement, Assign):
                variable = statement.variable
                found = joined(variable.known, known_of(statement.values[0]))
                if found != variable.known:
                    variable.known, has_changed = found, True


def find_greatest(functions):
    """Finds how great the variables of all functions can be: what nothing is known of can be any number, and what is
    known makes that less."""
    for _ in range(3):
        given = {}
        for function in functions.values():
            greatest = {}
            for statement in each(function.body):
                for value in statement.values:
                    for call in value.walk() if value.is_call else ():
                        if call.name == 'call':
                            found = [most_of(arg) for arg in call.args]
                            given[call.data] = [max(pair) for pair in zip(given.get(call.data, found), found)]
                if isinstance(statement, Assign):
                    variable = statement.variable
                    greatest[variable] = max(greatest.get(variable, 0), most_of(statement.values[0]))
            for variable, most in greatest.items():
                if variable.param is None:
                    variable.most = most
            function.greatest = greatest
        for function in functions.values():
            if not function.is_export:
                for param, most in zip(function.params, given.get(function.name, ())):
                    param.most = max(most, function.greatest.get(param, 0))


class Width:
    """Finds which numbers of 64 bits need them all."""

    def __init__(self, functions):
        self.functions, self.has_changed = functions, True
        while self.has_changed:
            self.has_changed = False
            for function in functions.values():
                for statement in each(function.body):
                    self.of_statement(function, statement)

    def of_statement(self, function, statement):
        if isinstance(statement, Assign):
            self.need(statement.values[0], statement.variable.is_wide)
        elif isinstance(statement, Store):
            self.need(statement.values[0], False)
            self.need(statement.values[1], statement.bits == 64)
        elif isinstance(statement, Return):
            for value in statement.values[:-1]:
                self.need(value, function.is_wide)
        else:
            for value in statement.values:
                self.need(value, False)

    def widen(self, what):
        if not what.is_wide:
            what.is_wide = self.has_changed = True

    def need(self, value, is_wide):
        """Notes what a value needs, of which all bits matter or those of an address."""
        is_wide = is_wide and value.kind == 'i64' and not is_small(value)
        if value.name == 'get' and is_wide:
            self.widen(value.data)
        elif value.name == 'call':
            callee = self.functions[value.data]
            if is_wide:
                self.widen(callee)
            for arg, param in zip(value.args, callee.params):
                self.need(arg, param.is_wide)
        else:
            for arg, arg_is_wide in zip(value.args, asks(value, is_wide)):
                self.need(arg, arg_is_wide)


def asks(value, is_wide):
    """Whether all bits of the numbers that a value is reckoned from matter, where all of its own do or not."""
    if value.name in SUMS:
        return [is_wide] * len(value.args)
    if value.name in ('load', 'extend_i32_u', 'wrap_i64'):
        return [False]
    if value.name == 'select':
        return [False, is_wide, is_wide]
    if value.name == 'shl':
        return [is_wide, False]
    if value.name == 'shr_u':
        return [not is_small(value.args[0]), False]
    return [not all(map(is_small, value.args))] * len(value.args)


class Bytes:
    """Finds the numbers of 32 bits of which the lowest eight alone matter."""

    def __init__(self, function):
        self.whole, self.has_changed = {*function.params}, True
        statements = [*each(function.body)]
        while self.has_changed:
            self.has_changed = False
            for statement in statements:
                self.of_statement(statement)
        for statement in statements:
            if isinstance(statement, Assign) and statement.variable.kind == 'i32':
                statement.variable.is_byte = statement.variable not in self.whole

    def of_statement(self, statement):
        if isinstance(statement, Assign):
            self.need(statement.values[0], statement.variable in self.whole)
        elif isinstance(statement, Store):
            self.need(statement.values[0], True)
            self.need(statement.values[1], statement.bits > 8)
        else:
            for value in statement.values:
                self.need(value, True)

    def need(self, value, is_whole):
        """Notes what a value needs, of which all bits matter or the lowest eight."""
        if value.name == 'get' and is_whole and value.data not in self.whole:
            self.whole.add(value.data)
            self.has_changed = True
        if is_bits_of_byte(value):
            self.need(value.args[0].args[0], False)
            return
        is_masked = value.name == 'and' and value.args[1].name == 'const' and value.args[1].data <= 255
        for arg in value.args:
            self.need(arg, is_whole and not is_masked if value.name in SUMS else True)


def is_bits_of_byte(value):
    """Whether a value is some of the lowest eight bits of a number, moved to the right."""
    if value.name != 'and' or value.args[0].name != 'shr_u':
        return False
    counts = value.args[1], value.args[0].args[1]
    return all(one.name == 'const' for one in counts) and counts[0].data << counts[1].data % 32 <= 255


class Refusing:
    """Refuses what isn't known of the stack and the tables, and finds the bytes of the stack that a function takes."""

    def __init__(self, function):
        self.deepest = 0
        for statement in each(function.body):
            for value in statement.values[:-1] if isinstance(statement, Return) else statement.values:
                for one in value.walk():
                    self.look_at(one)
            self.look_at_statement(statement)
        function.frame = -self.deepest

    def look_at_statement(self, statement):
        if isinstance(statement, Assign) and statement.variable.is_end_of_stack and not is_frame(
                known_of(statement.values[0])):
            refuse(f'the end of the stack becomes what {statement.values[0].name} gives')
        if isinstance(statement, Return) and known_of(statement.values[-1]) != (FRAME, 0):
            refuse('a function leaves the stack otherwise than it found it')
        if isinstance(statement, (Store, Move)):
            place = statement.values[0]
            if known_of(place) > PLAIN:
                refuse(f'{place.name} is written to, and may be in the tables')
            if isinstance(statement, Store) and '@' in statement.offset:
                refuse(f'a store at {statement.offset}')

    def look_at(self, value):
        if value.name == 'get' and value.data.is_end_of_stack and not is_frame(value.data.known):
            refuse('the end of the stack is not the same on two ways')
        if value.name in ('add', 'sub'):
            self.look_at_sum(value)
        elif value.name in COMPARED_HERE:
            stack_answer(value)
        elif value.name not in ('get', 'const', 'table', 'select', 'load', 'call'):
            for arg in value.args:
                if known_of(arg) != PLAIN:
                    refuse(f'{value.name} of a place of the stack or the tables')

    def look_at_sum(self, value):
        a, b = value.args
        left, right = known_of(a), known_of(b)
        if value.name == 'add' and is_frame(right):
            left, right, b = right, left, a
        if is_frame(left) and b.name == 'const':
            self.deepest = min(self.deepest, moved(value)[1])
        elif left == (FRAME, 0) or is_frame(left) and value.name == 'sub' and right == PLAIN:
            refuse(f'{value.name} of stack, a place of the stack, and another number')


ANSWERS = {('ge_s', 16): 1, ('gt_s', 15): 1, ('lt_s', 16): 0, ('le_s', 15): 0}
COMPARED_HERE = frozenset('eq ne lt_s lt_u gt_s gt_u le_s le_u ge_s ge_u'.split())


def stack_answer(value):
    """The answer to a comparison that asks if the module's stack, which begins at 0 there, has 16 bytes left: it always
    has here. None of any other comparison."""
    known = [known_of(arg) for arg in value.args]
    if not value.name.endswith('_s') or all(one == PLAIN for one in known):
        return None
    asked = (value.name, value.args[1].data if value.args[1].name == 'const' else None)
    if not is_frame(known[0]) or asked not in ANSWERS:
        refuse(f'{value.name} of a place of the stack or the tables')
    return ANSWERS[asked]
