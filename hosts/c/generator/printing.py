"""Prints the statements of C: what stands in which braces, the variables where they are set, and the labels that are
left."""
import textwrap
from collections import Counter

from facts import is_frame
from structure import NOWHERE, Cases, Loop, falls, labels_of, targets, uses
from texts import CAST, type_of
from tree import Assign, Block, Branch, If, Statement
from webs import NEAR, each, number_of, shape

WIDEST, DEEPEST = 116, 64
LETTERS = {'u32': 'n', 'word': 'p', 'u64': 'w'}


class Declare(Statement):
    """Says that a variable is there."""

    def __init__(self, variable, rest):
        self.variable = variable
        self.is_set = Surely(variable).sets(rest)


def find_variables(statement):
    """Notes of a statement and of those within it which variables they have, but for parameters and places of the
    stack: `inside` are all, and `within` those of each of its lists."""
    own = {one for one in own_variables(statement) if one.param is None and not is_frame(one.known)}
    statement.within = [set().union(*map(find_variables, body)) for body in statement.lists]
    statement.inside = own.union(*statement.within)
    return statement.inside


def own_variables(statement):
    """Those of the statement alone."""
    found = frozenset().union(*(value.reads for value in statement.values))
    return found | {statement.variable} if isinstance(statement, Assign) else found


def number_variables(statements):
    """Numbers the variables in the order in which they stand there."""
    found = {}
    for one in each(statements):
        for value in one.values:
            for part in value.walk():
                if part.name == 'get':
                    found.setdefault(part.data, len(found))
        if isinstance(one, Assign):
            found.setdefault(one.variable, len(found))
    for variable, order in found.items():
        variable.order = order


def free_name(letter, number, taken):
    """A name of a letter and a number, or the next one that isn't taken."""
    while f'{letter}{number}' in taken:
        number += 1
    return f'{letter}{number}'


def number_labels(statements, behind, numbers):
    """Gives labels numbers, which what stands behind them makes: `behind` is that of the end of the statements."""
    for i, one in enumerate(statements):
        left = statements[i + 1:]
        after = number_of([type(left[0]).__name__, [shape(value, 1) for value in left[0].values]]) if left else behind
        if isinstance(one, Loop):
            numbers[one.exit], numbers[one.label] = after, number_of(after)
        elif isinstance(one, (Block, Cases)):
            numbers[one.label] = after
        if isinstance(one, Cases):
            numbers.update((label, number_of([after, k])) for k, label in enumerate(one.labels))
        for inner in one.lists:
            number_labels(inner, after, numbers)


class Declarer:
    """Declares each variable in the innermost list that has all its uses, where it is set first if that can be."""

    def __init__(self):
        self.first = {}

    def list(self, statements, known):
        """The statements of a list, with declarations. `known` are the variables that are declared around it."""
        inside = [one.inside - known for one in statements]
        counts = Counter(variable for found in inside for variable in found)
        kept, here = [], set()
        for i, (statement, found) in enumerate(zip(statements, inside)):
            new = [one for one in self.ordered(found - here) if counts[one] > 1 or one in own_variables(statement)
                   or sum(one in body for body in statement.within) > 1
                   or self.is_carried(statement, one)]
            here.update(new)
            if isinstance(statement, Assign) and statement.variable in new and (
                    statement.variable not in statement.values[0].reads):
                self.first[statement] = statement.variable
                new.remove(statement.variable)
            kept += [Declare(one, statements[i:]) for one in new]
            statement.lists = [self.list(body, known | here) for body in statement.lists]
            kept.append(statement)
        return kept

    def ordered(self, variables):
        return sorted(variables, key=lambda one: one.order)

    def is_carried(self, statement, variable):
        """Whether a round of a loop may read what another one has set."""
        return isinstance(statement, Loop) and not Surely(variable).sets(statement.lists[0])


class Surely:
    """Whether a variable is set, on each way, before it is read."""

    def __init__(self, variable):
        self.variable, self.is_read, self.left = variable, False, {}

    def sets(self, statements):
        """Whether it isn't read before."""
        self.follow(statements, False)
        return not self.is_read

    def follow(self, statements, is_set):
        """Whether it is set behind these statements; None is true of what is never reached too."""
        for one in statements:
            if not is_set and any(self.variable in value.reads for value in one.values):
                self.is_read = True
            is_set = self.behind(one, is_set)
        return is_set

    def behind(self, one, is_set):
        if isinstance(one, Assign):
            return is_set or one.variable is self.variable
        if isinstance(one, If):
            return all([self.follow(way, is_set) for way in one.lists])
        if isinstance(one, Cases):
            return self.behind_cases(one, is_set)
        if isinstance(one, Loop):
            end = self.follow(one.lists[0], is_set)
            return {'for': True, 'while': is_set, 'do': end}[one.kind] and self.left.pop(one.exit, True)
        if isinstance(one, Block):
            return self.follow(one.lists[0], is_set) & self.left.pop(one.label, True)
        for label in targets(one):
            self.left[label] = self.left.get(label, True) and is_set
        return is_set or one.ends

    def behind_cases(self, cases, is_set):
        end = True
        for label in cases.elsewhere:
            self.left[label] = self.left.get(label, True) and is_set
        for numbers, label, body in zip(cases.numbers, cases.labels, cases.lists):
            end = self.follow(body, self.left.pop(label, True) and end and (is_set or not numbers))
        return end and self.left.pop(cases.label, True)


class Printer:
    """Prints the lines of a function."""

    def __init__(self, texts, function):
        self.texts, self.function = texts, function
        self.lines, self.labels, self.level, self.first = [], {}, 1, {}
        self.taken = {param.name for param in function.params}

    def say(self, line):
        """Says a line, in several where it is long."""
        begin = ' ' * min(4 * self.level, DEEPEST)
        if len(begin) + len(line) > WIDEST + 4:
            lines = textwrap.wrap(line, WIDEST - len(begin), break_long_words=False, break_on_hyphens=False)
            self.lines.append(begin + lines[0])
            self.lines += [f'{begin}    {more}' for more in lines[1:]]
        else:
            self.lines.append(begin + line)

    def name(self, variable):
        """Names a variable by its type and a number that what it gets makes, so that it has that name still where
        something else changes."""
        number = min((number_of(shape(value, NEAR)) for value in variable.sets), default=0)
        variable.name = free_name(LETTERS[type_of(variable)], number, self.taken)
        self.taken.add(variable.name)

    def print(self, statements):
        declarer = Declarer()
        number_variables(statements)
        for one in statements:
            find_variables(one)
        statements = declarer.list(statements, frozenset())
        self.first, self.numbers = declarer.first, {}
        number_labels(statements, 0, self.numbers)
        self.list(statements, frozenset(('end',)), NOWHERE, NOWHERE)
        return self.lines

    def label_of(self, label):
        """The name of a label in C."""
        if label not in self.labels:
            self.labels[label] = free_name('L', self.numbers.get(label, 0), {*self.labels.values()})
        return self.labels[label]

    def go(self, label, after, breaks, rounds):
        """The statement that goes to a label, None where that comes next."""
        if label in after:
            return None
        if label in breaks:
            return 'break;'
        return 'continue;' if label in rounds else f'goto {self.label_of(label)};'

    def list(self, statements, after, breaks, rounds):
        """Prints the statements of a list. `after` are the labels behind it, `breaks` those that break leads to,
        `rounds` those that continue leads to."""
        for i, statement in enumerate(statements):
            behind = labels_of(statements[i + 1:], after)
            kind = type(statement).__name__.lower()
            getattr(self, 'say_' + kind)(statement, behind, breaks, rounds)

    def braces(self, statements, after, breaks, rounds):
        """The same within braces."""
        taken = set(self.taken)
        self.level += 1
        self.list(statements, after, breaks, rounds)
        self.level -= 1
        self.taken = taken

    def say_declare(self, statement, *_):
        self.name(statement.variable)
        self.say(f"{type_of(statement.variable)} {statement.variable.name}{'' if statement.is_set else ' = 0'};")

    def say_assign(self, statement, *_):
        variable, value = statement.variable, statement.values[0]
        if is_frame(variable.known):
            return
        text = self.texts.assigned(variable, value)
        if statement in self.first:
            self.name(variable)
            kind = type_of(variable)
            self.say(f"{'const ' * (len(variable.sets) == 1)}{kind} {variable.name} = {text};")
        else:
            self.say(f'{variable.name} = {text};')

    def say_do(self, statement, *_):
        value = statement.values[0]
        if value.is_call:
            text = self.texts.of(value).within(CAST)
            self.say(f'(void){text};' if value.kind else f'{text};')

    def say_store(self, statement, *_):
        place, value = statement.values
        where = self.texts.place(place, statement.offset)
        if statement.bits == 64:
            text = self.texts.handed_on(value, 'u64')
        else:
            found = self.texts.of(value, 'u32' if value.kind == 'i32' else 'word')
            text = found.cast('u32').text if found.kind == 'word' else found.text
            if value.kind == 'i32' and statement.bits == 32:
                text = self.texts.handed_on(value, 'u32')
        self.say(f'store{statement.bits}({where}, {text});')

    def say_move(self, statement, *_):
        self.say(self.texts.move(statement))

    def say_return(self, statement, after, *_):
        if len(statement.values) > 1:
            value = statement.values[0]
            kind = 'u32' if value.kind == 'i32' else 'u64' if self.function.is_wide else 'word'
            self.say(f'return {self.texts.handed_on(value, kind)};')
        elif 'end' not in after:
            self.say('return;')

    def say_trap(self, *_):
        self.say('trap();')

    def say_branch(self, statement, after, breaks, rounds):
        found = self.go(statement.label, after, breaks, rounds)
        if found:
            self.say(found)

    def say_if(self, statement, after, breaks, rounds):
        then, other = statement.lists
        condition = self.texts.condition(statement.values[0]).text
        if not ends(then, after) and other:
            # what can only come behind it needs no else
            self.say(f'if ({condition}) {{')
            self.braces(then, after, breaks, rounds)
            self.say('}')
            self.list(other, after, breaks, rounds)
            return
        short = self.short(then, after, breaks, rounds) if not other else None
        if short is not None:
            if not short:
                return
            self.say(f'if ({condition})')
            self.level += 1
            self.say(short)
            self.level -= 1
            return
        self.say(f'if ({condition}) {{')
        self.braces(then, after, breaks, rounds)
        while len(other) == 1 and isinstance(other[0], If) and (
                ends(other[0].lists[0], after) or not other[0].lists[1]):
            self.say(f'}} else if ({self.texts.condition(other[0].values[0]).text}) {{')
            self.braces(other[0].lists[0], after, breaks, rounds)
            other = other[0].lists[1]
        if other:
            self.say('} else {')
            self.braces(other, after, breaks, rounds)
        self.say('}')

    def short(self, statements, after, breaks, rounds):
        """The text of a list that is one branch, None of others."""
        if len(statements) == 1 and isinstance(statements[0], Branch):
            return self.go(statements[0].label, after, breaks, rounds) or ''
        return None

    def say_block(self, block, after, breaks, rounds):
        body, label = block.lists[0], block.label
        inside = Counter(near_targets(body))
        lost = sum(inside[one] for one in breaks | rounds if one not in after)
        behind = after | {label}
        if sum(inside[one] for one in behind) > lost:
            self.say('do {')
            self.braces(body, behind, behind, NOWHERE)
            self.say('} while (0);')
        else:
            self.say('{')
            self.braces(body, behind, breaks, rounds)
            self.say('}')
        self.mark(label)

    def mark(self, label):
        """Says a label that branches name."""
        if label in self.labels:
            self.level -= 1
            self.say(f'{self.labels[label]}:;')
            self.level += 1

    def say_loop(self, loop, after, breaks, rounds):
        behind = after | {loop.exit}
        at = len(self.lines)
        if loop.kind == 'while':
            self.say(f'while ({self.texts.condition(loop.values[0]).text}) {{')
        else:
            self.say('for (;;) {' if loop.kind == 'for' else 'do {')
        again = frozenset((loop.label,)) if loop.kind != 'do' else NOWHERE
        self.braces(loop.lists[0], again, behind, again)
        self.say(f'}} while ({self.texts.condition(loop.values[0]).text});' if loop.kind == 'do' else '}')
        if loop.label in self.labels:
            begin = ' ' * min(4 * (self.level - 1), DEEPEST)
            self.lines.insert(at, f'{begin}{self.labels[loop.label]}:;')
        self.mark(loop.exit)

    def say_cases(self, cases, after, breaks, rounds):
        behind = after | {cases.label}
        self.say(f'switch ({self.texts.plain(cases.values[0])}) {{')
        for label, numbers in cases.elsewhere.items():
            found = self.go(label, NOWHERE, behind, rounds)
            if numbers == [None] and found == 'break;':
                continue
            for number in numbers:
                self.say('default:' if number is None else f'case {number}:')
            self.level += 1
            self.say(found)
            self.level -= 1
        self.say_codes(cases, behind, rounds)
        self.say('}')
        self.mark(cases.label)

    def say_codes(self, cases, behind, rounds):
        last = len(cases.lists) - 1
        for i, (numbers, label, body) in enumerate(zip(cases.numbers, cases.labels, cases.lists)):
            for number in numbers:
                self.say('default:' if number is None else f'case {number}:')
            place = len(self.lines)
            following = frozenset((cases.labels[i + 1],)) if i < last else NOWHERE
            if body or i == last:
                self.say('{')
                self.braces(body, following, behind, rounds)
                if i == last and ends(body, following):
                    self.level += 1
                    self.say('break;')
                    self.level -= 1
                self.say('}' + ' /* fall through */' * (i < last and ends(body, following)))
            if label in self.labels:
                self.lines.insert(place, f"{' ' * min(4 * (self.level - 1), DEEPEST)}{self.labels[label]}:;")


def ends(statements, after):
    """Whether C may reach the end of these statements: they fall, or go to one of the labels behind them, which the end
    of a loop may lead to."""
    return falls(statements) or any(uses([statements], label) for label in after)


def near_targets(statements):
    """The labels that branches name, but for those within loops and switches of their own."""
    for one in statements:
        yield from targets(one) if isinstance(one, Branch) else ()
        for inner in one.lists if not isinstance(one, (Loop, Cases)) else ():
            yield from near_targets(inner)
