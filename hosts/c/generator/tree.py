"""A function of a module as a tree: statements, with the numbers that they reckon.

What stands on the stack of WebAssembly becomes an expression of what uses it. What is read of memory and what a call
gives gets a variable of its own where it stands, so that no order changes."""
import re
from itertools import count

TWO = frozenset('add sub mul and or xor shl shr_s shr_u div_s div_u rem_s rem_u'.split())
COMPARED = {f'{name}{sign}': (sign_of, sign[1:]) for name, sign_of in (
    ('eq', '=='), ('ne', '!='), ('lt', '<'), ('gt', '>'), ('le', '<='), ('ge', '>='))
            for sign in (('',) if name in ('eq', 'ne') else ('_s', '_u'))}
DIVIDED = frozenset('div_s div_u rem_s rem_u'.split())
# What is translated: each of these has its test in checks/test_generator.py, and no other instruction is taken.
INSTRUCTIONS = frozenset("""
    block loop if else end br br_if br_table return call unreachable drop select
    local.get local.set local.tee global.get global.set memory.copy memory.fill
    i32.const i32.add i32.sub i32.mul i32.and i32.or i32.xor i32.shl i32.shr_u i32.div_u i32.rem_u i32.clz i32.extend8_s
    i32.eqz i32.eq i32.ne i32.lt_s i32.lt_u i32.gt_s i32.gt_u i32.le_u i32.ge_s i32.ge_u i32.wrap_i64
    i32.load i32.load8_s i32.load8_u i32.load16_u i32.store i32.store8 i32.store16
    i64.const i64.add i64.sub i64.mul i64.and i64.or i64.xor i64.shl i64.shr_s i64.shr_u i64.div_s i64.div_u i64.rem_u
    i64.clz
    i64.eqz i64.eq i64.ne i64.lt_s i64.lt_u i64.gt_s i64.gt_u i64.le_s i64.le_u i64.ge_s i64.ge_u i64.extend_i32_u
    i64.load i64.load8_u i64.load16_u i64.load32_u i64.store i64.store8 i64.store16 i64.store32""".split())
STACK = '$__stack_pointer'
# Greater expressions are put into a variable.
GREATEST = 14


def refuse(what):
    raise SystemExit(f'wasm_to_c.py: {what}')


class Variable:
    """A number that the function keeps: `kind` is its type in WebAssembly. `sets` are the values that it gets; None is
    one that isn't known here: a parameter's."""

    def __init__(self, kind, is_local=False, param=None):
        self.kind, self.is_local, self.param = kind, is_local, param
        self.sets, self.reads = [], 0
        # What facts.py finds: what it is to the stack and the tables, how great it can be, and whether more than the
        # bits of an address matter, or the lowest eight alone.
        self.known, self.most, self.is_wide, self.is_byte = None, bits_of(kind), kind == 'i32', False
        self.name, self.is_end_of_stack = None, False


def bits_of(kind):
    """The greatest number of a type."""
    return (1 << int(kind[1:])) - 1


class Value:
    """A number: `name` is the instruction that makes it, without its type, of `args`; `data` is what else stands
    there. `kind` is its type. `reads` are the variables that it reads."""
    __slots__ = ('name', 'kind', 'args', 'data', 'reads', 'size', 'is_memory', 'is_call')

    def __init__(self, name, kind, *args, data=None):
        self.name, self.kind, self.args, self.data = name, kind, args, data
        self.reads = frozenset((data,)) if name == 'get' else frozenset().union(*(arg.reads for arg in args))
        self.size = 1 + sum(arg.size for arg in args)
        self.is_memory = name == 'load' or any(arg.is_memory for arg in args)
        # A division may end the program.
        self.is_call = name == 'call' or name in DIVIDED and not is_safe(args[1]) or any(arg.is_call for arg in args)

    def walk(self):
        """All values in it, the outermost last."""
        for arg in self.args:
            yield from arg.walk()
        yield self

    def with_args(self, args):
        return Value(self.name, self.kind, *args, data=self.data)


def is_safe(divisor):
    """Whether nothing is tested of a divisor: it is known, and neither 0 nor -1."""
    return divisor.name == 'const' and divisor.data not in (0, bits_of(divisor.kind))


def const(kind, number):
    return Value('const', kind, data=number)


def get(variable):
    return Value('get', variable.kind, data=variable)


class Statement:
    """`values` are the numbers that it uses, in a list; `lists` are the lists of statements in it."""
    values, lists = (), ()
    # Whether the statement behind it is reached from it alone by a label.
    ends = False


class Assign(Statement):
    """Puts a number into a variable."""

    def __init__(self, variable, value):
        self.variable, self.values = variable, [value]


class Do(Statement):
    """Reckons a number that nothing reads, for what that does besides."""

    def __init__(self, value):
        self.values = [value]


class Store(Statement):
    """Writes a number of so many bits at a place. `offset` is what is added to that."""

    def __init__(self, bits, offset, place, value):
        self.bits, self.offset, self.values = bits, offset, [place, value]


class Move(Statement):
    """Copies memory, or fills it."""

    def __init__(self, name, *values):
        self.name, self.values = name, list(values)


class If(Statement):
    def __init__(self, condition, then, other=()):
        self.values, self.lists = [condition], [then, list(other)]


class Block(Statement):
    """Statements that a branch to `label` leaves, or begins again if it is a loop."""

    def __init__(self, label, body, is_loop=False):
        self.label, self.lists, self.is_loop = label, [body], is_loop


class Branch(Statement):
    ends = True

    def __init__(self, label):
        self.label = label


class Switch(Statement):
    """Goes to one of the labels."""
    ends = True

    def __init__(self, value, labels, default):
        self.values, self.labels, self.default = [value], labels, default


class Return(Statement):
    """`stack` is the end of the stack there."""
    ends = True

    def __init__(self, stack, *values):
        self.values = [*values, stack]


class Trap(Statement):
    ends = True


class Label:
    """Where branches to a block, a loop, a branch of an if, or the function go. Its value is put into a variable."""
    numbers = count()

    def __init__(self, kind, result, height):
        self.number = next(self.numbers)
        self.kind, self.result, self.height = kind, result, height
        self.variable = Variable(result, True) if result and kind != 'loop' else None
        # The condition of an if, and its first branch once that has ended. The list around the block.
        self.condition, self.then = None, None
        self.uses = 0


class Builder:
    """Builds the tree of a function."""

    def __init__(self, module, head, kinds, body):
        self.module, self.head, self.body = module, head, body
        self.params = [Variable(kind, True, i) for i, kind in enumerate(head.params)]
        self.locals = self.params + [Variable(kind, True) for kind in kinds[len(self.params):]]
        self.end_of_stack = Variable('i64', True)
        self.stack, self.labels, self.lists = [], [], [[]]

    def say(self, statement):
        self.lists[-1].append(statement)

    def push(self, name, kind, *args, data=None):
        self.keep(Value(name, kind, *args, data=data))

    def keep(self, value):
        self.stack.append(self.settled(value) if value.size > GREATEST else value)

    def settled(self, value):
        """The value in a variable of its own."""
        if value.name == 'const' or value.name == 'get' and not value.data.is_local:
            return value
        variable = Variable(value.kind)
        self.say(Assign(variable, value))
        return get(variable)

    def settle_all(self, changed=None):
        """Puts values of the stack into variables, in front of what changes something that they read."""
        for i, value in enumerate(self.stack):
            if any(one.is_local for one in value.reads) and (changed is None or changed in value.reads):
                self.stack[i] = self.settled(value)

    def pop(self, count):
        """The topmost values, the lowest first."""
        found = self.stack[len(self.stack) - count:]
        del self.stack[len(self.stack) - count:]
        return found

    def build(self):
        """The statements. What can't be reached, behind a branch and up to the end of its block, is left out."""
        self.labels.append(Label('func', self.head.results[0] if self.head.results else None, 0))
        dead = 0
        for words in self.body:
            name = words[0]
            if dead and (dead > 1 or name not in ('end', 'else')):
                dead += (name in ('block', 'loop', 'if')) - (name == 'end')
            elif name in ('end', 'else'):
                dead = 0
                (self.close if name == 'end' else self.turn)()
            else:
                dead = int(self.one(name, words[1:]) is True)
        if not dead:
            self.say(self.returned())
        return self.lists[0]

    def one(self, name, words):
        """Takes an instruction. True: what follows is never reached."""
        if name not in INSTRUCTIONS:
            refuse(f'no test of {name}')
        known = getattr(self, 'do_' + name.replace('.', '_'), None)
        if known:
            return known(*words)
        access = re.fullmatch(r'(i\d\d)\.(load|store)(\d*)(_[us])?', name)
        if access:
            return self.access(*access.groups(''), *words)
        kind, _, action = name.partition('.')
        return self.number(kind, action)

    # ---- Blocks

    def open(self, kind, words, condition=None):
        self.settle_all()
        label = Label(kind, result_of(words), len(self.stack))
        label.condition = condition
        self.labels.append(label)
        self.lists.append([])

    def do_block(self, *words):
        self.open('block', words)

    def do_loop(self, *words):
        self.open('loop', words)

    def do_if(self, *words):
        self.open('if', words, *self.pop(1))

    def end_value(self):
        """Puts the value of a block that ends into its variable."""
        label, body = self.labels[-1], self.lists[-1]
        if label.result and not (body and body[-1].ends) and len(self.stack) > label.height:
            if label.kind == 'loop':
                label.variable = Variable(label.result, True)
            self.say(Assign(label.variable, self.stack[-1]))
        del self.stack[label.height:]

    def close(self):
        self.end_value()
        label, body = self.labels.pop(), self.lists.pop()
        if label.condition:
            then, other = (label.then, body) if label.then is not None else (body, [])
            body = [If(label.condition, then, other)]
        self.say(Block(label, body, label.kind == 'loop'))
        if label.result:
            self.stack.append(get(label.variable or Variable(label.result, True)))

    def turn(self):
        """Ends the first branch of an if, and begins the other."""
        self.end_value()
        self.labels[-1].then = self.lists.pop()
        self.lists.append([])

    def returned(self):
        return Return(get(self.end_of_stack), *([self.stack[-1]] if self.head.results else []))

    def branch(self, depth, condition=None):
        """Says a branch, or one that depends on a condition; the values stay on the stack."""
        label = self.labels[-1 - depth]
        if label.kind == 'func':
            left = self.returned()
        else:
            left = Branch(label)
            label.uses += 1
            if label.variable:
                self.stack[-1] = self.settled(self.stack[-1])
                self.say(Assign(label.variable, self.stack[-1]))
        self.say(If(condition, [left]) if condition else left)

    def do_br(self, depth):
        self.branch(int(depth))
        return True

    def do_br_if(self, depth):
        [condition] = self.pop(1)
        self.settle_all(self.labels[-1 - int(depth)].variable or 0)
        self.branch(int(depth), condition)

    def do_br_table(self, *words):
        [value] = self.pop(1)
        labels = [self.labels[-1 - int(depth)] for depth in words]
        for label in labels:
            if label.variable or label.kind == 'func':
                refuse('no translation of a table of branches with a value, or out of the function')
            label.uses += 1
        self.say(Switch(value, labels[:-1], labels[-1]))
        return True

    def do_return(self):
        self.say(self.returned())
        return True

    def do_unreachable(self):
        self.say(Trap())
        return True

    # ---- Variables

    def do_drop(self):
        [value] = self.pop(1)
        if value.is_call:
            self.say(Do(value))

    def do_local_get(self, number):
        self.stack.append(get(self.locals[int(number)]))

    def do_local_set(self, number):
        [value] = self.pop(1)
        self.assign(self.locals[int(number)], value)

    def assign(self, variable, value):
        self.settle_all(variable)
        self.say(Assign(variable, value))

    def do_local_tee(self, number):
        self.do_local_set(number)
        self.do_local_get(number)

    def do_global_get(self, name):
        if name != STACK:
            refuse(f'no translation of {name}')
        self.stack.append(get(self.end_of_stack))

    def do_global_set(self, name):
        if name != STACK:
            refuse(f'no translation of {name}')
        self.assign(self.end_of_stack, *self.pop(1))

    # ---- What reads and changes memory

    def do_call(self, name):
        head = self.module.heads[name]
        call = Value('call', head.results[0] if head.results else None, *self.pop(len(head.params)), data=name)
        if head.results:
            self.stack.append(self.settled(call))
        else:
            self.say(Do(call))

    def do_memory_copy(self):
        self.say(Move('copy', *self.pop(3)))

    def do_memory_fill(self):
        self.say(Move('fill', *self.pop(3)))

    def access(self, kind, action, narrow, sign, *words):
        """A load or a store, whose address has a fixed number added to it: a text, with @ in front if it is an
        address of the tables."""
        bits = int(narrow or kind[1:])
        value = self.pop(1) if action == 'store' else []
        offset = next((word[7:] for word in words if word.startswith('offset=')), '0')
        if value:
            self.say(Store(bits, offset, *self.pop(1), *value))
        else:
            self.stack.append(self.settled(Value('load', kind, *self.pop(1), data=(bits, sign, offset))))

    # ---- Numbers

    def do_i32_const(self, word):
        self.constant('i32', word)

    def do_i64_const(self, word):
        self.constant('i64', word)

    def constant(self, kind, word):
        if '@' not in word:
            self.stack.append(const(kind, int(word) % (1 << int(kind[1:]))))
        elif self.module.has_address(int(word[1:]), 0, 1) is not False:
            refuse(f'{word[1:]} is where an address stands')
        else:
            self.module.address(word)
            self.stack.append(Value('table', kind, data=int(word[1:])))

    def do_select(self):
        first, second, condition = self.pop(3)
        self.push('select', first.kind, condition, first, second)

    def number(self, kind, action):
        """An instruction that makes a number of numbers. A division stands by itself: it may end the program."""
        count = 2 if action in TWO or action in COMPARED else 1
        args = self.pop(count)
        if action == 'eqz':
            action, args = 'eq', [*args, const(kind, 0)]
        value = Value(action, 'i32' if action in COMPARED else kind, *args)
        if value.is_call:
            value = self.settled(value)
        self.keep(value)


def result_of(words):
    """The type of a block's value, None where it has none."""
    found = re.fullmatch(r'(?:\(result (i\d\d)\))?', ' '.join(words))
    return found[1] if found else refuse(f"no translation of a block {' '.join(words)}")
