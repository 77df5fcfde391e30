"""Makes the statements of a tree those of C: loops, choices and cases in the place of branches."""
from tree import Assign, Block, Branch, If, Label, Return, Statement, Store, Switch, Trap, Value, const
from webs import each

NOWHERE = frozenset()
# So many steps may stand before a return in the place of a branch to them, and so great what that gives.
SHORT, LEAST = 40, 12


class Loop(Statement):
    """Statements that are done again behind their end. `kind` is for, while or do; the last two have a condition.
    `label` is where the next round begins, `exit` what stands behind the loop."""

    def __init__(self, label, end, body):
        self.label, self.exit, self.lists, self.kind, self.values = label, end, [body], 'for', []

    def ask(self, kind, condition, body):
        self.kind, self.values, self.lists = kind, [condition], [body]


class Cases(Statement):
    """A switch: lists of statements, each of which goes on to the next one. `numbers` are those that lead to each, None
    the others, and `labels` what branches to it name. `elsewhere` are numbers and the labels that they lead to.
    `label` is what stands behind it all."""

    def __init__(self, value, levels, label):
        self.values, self.labels, self.lists = [value], [one for one, _ in levels], [body for _, body in levels]
        self.label = label
        self.numbers, self.elsewhere = [[] for _ in levels], {}

    def add(self, number, label):
        """Notes that a number leads to a label."""
        if label in self.labels:
            self.numbers[self.labels.index(label)].append(number)
        else:
            self.elsewhere.setdefault(label, []).append(number)


def falls(statements):
    """Whether the end of these statements may be reached."""
    if not statements:
        return True
    last = statements[-1]
    if last.ends:
        return False
    if isinstance(last, If):
        return any(map(falls, last.lists))
    if isinstance(last, Loop):
        return last.kind != 'for' or uses(last.lists, last.exit) > 0
    if isinstance(last, Block):
        return falls(last.lists[0]) or uses(last.lists, last.label) > 0
    return True


def targets(statement):
    """The labels that a statement itself goes to, as often as it names them."""
    if isinstance(statement, Branch):
        return [statement.label]
    if isinstance(statement, Switch):
        return [*statement.labels, statement.default]
    if isinstance(statement, Cases):
        return [*statement.elsewhere]
    return []


def uses(lists, label):
    return sum(targets(one).count(label) for statements in lists for one in each(statements))


def goes(statements, labels):
    """Whether these statements end with a branch to one of these labels."""
    return bool(statements) and isinstance(statements[-1], Branch) and statements[-1].label in labels


def opposite(condition):
    return Value('eq', 'i32', condition, const('i32', 0))


def short_end(statements):
    """The statements up to a branch, a return or a trap, if they may stand in the place of a branch to them: at most
    SHORT steps before it. None where they don't."""
    for i, one in enumerate(statements[:SHORT + 1]):
        if isinstance(one, (Return, Branch, Trap)):
            is_alone = isinstance(one, Branch) and i > 0
            return None if is_alone or not all(value.size <= LEAST for value in one.values[:-1]) else statements[:i + 1]
        if not isinstance(one, (Assign, Store)):
            break
    return None


def copied(statement):
    """The same statement once more."""
    if isinstance(statement, Branch):
        return Branch(statement.label)
    if isinstance(statement, Assign):
        return Assign(statement.variable, statement.values[0])
    if isinstance(statement, Store):
        return Store(statement.bits, statement.offset, *statement.values)
    return Return(statement.values[-1], *statement.values[:-1]) if isinstance(statement, Return) else Trap()


def instead(statements, label, end):
    """The statements, with others in the place of branches to a label."""
    for one in statements:
        one.lists = [instead(inner, label, end) for inner in one.lists]
    if goes(statements, {label}):
        statements[-1:] = map(copied, end)
    return statements


def labels_of(left, after):
    """The labels that stand in front of these statements; `after` are those behind them."""
    if not left:
        return after
    return frozenset((left[0].label,)) if isinstance(left[0], Branch) else NOWHERE


# ---- Shapes: what follows a choice whose one way goes elsewhere becomes a part of the other, and branches to what
# comes next anyhow go.

def shaped_list(statements, after):
    """The statements of a list, behind whose end these labels stand."""
    kept, left = [], list(statements)
    while left:
        statement, left = left[0], left[1:]
        if isinstance(statement, Branch) and statement.label in after:
            break
        if isinstance(statement, If) and left:
            left = with_rest(statement, left, after)
        left = with_moved(statement, left, after)
        made = shaped_one(statement, left, labels_of(left, after))
        if made is not None:
            left = made
            continue
        kept.append(statement)
        if not falls([statement]):
            break
    return kept


def with_rest(choice, left, after):
    """Puts the rest of a list into the way of a choice whose other way goes to the list's end. Gives what is left."""
    for i in (0, 1):
        if goes(choice.lists[i], after) and falls(choice.lists[1 - i]):
            choice.lists[1 - i] = [*choice.lists[1 - i], *left]
            choice.lists[i] = choice.lists[i][:-1]
            return []
    return left


def with_moved(block, left, after):
    """Puts the rest of a list where a block's one branch to it is, if the block is left by that alone. Gives what is
    left."""
    label = label_behind(block, after)
    if not label or not left or not (after or not falls(left)) or isinstance(left[0], Branch) or (
            uses(block.lists, label) != 1):
        return left
    rest = [*left, Branch(min(after, key=lambda label: label.number))] if falls(left) else left
    return [] if moved(block.lists[0], label, rest, not falls(left)) else left


def label_behind(block, after):
    """The label behind a block that is left by a branch alone, or behind a loop that is left for further on too. None
    of others."""
    if isinstance(block, Block) and not block.is_loop:
        return None if falls(block.lists[0]) else block.label
    if isinstance(block, Loop) and any(uses(block.lists, label) for label in after):
        return block.exit
    return None


def moved(statements, label, rest, into_loops):
    """Whether a branch to a label has become these statements, which it may in a loop if they end elsewhere."""
    if goes(statements, {label}):
        statements[-1:] = rest
        return True
    return any(moved(inner, label, rest, into_loops) for one in statements
               if into_loops or not isinstance(one, (Loop, Cases)) and not (isinstance(one, Block) and one.is_loop)
               for inner in one.lists)


def shaped_one(statement, left, after):
    """Shapes a statement. Gives what is to stand in its place and behind it, None where it stays."""
    if isinstance(statement, If):
        return shaped_choice(statement, left, after)
    if isinstance(statement, Block):
        return shaped_loop(statement, left) if statement.is_loop else shaped_block(statement, left, after)
    if isinstance(statement, Loop):
        statement.lists = [shaped_list(statement.lists[0], frozenset((statement.label,)))]
    return None


def shaped_choice(choice, left, after):
    choice.lists = [shaped_list(way, after) for way in choice.lists]
    then, other = choice.lists
    if not then and not other and not choice.values[0].is_call:
        return left
    if other and (not then or len(then) > 1 and isinstance(other[-1], Trap) and len(other) == 1):
        choice.lists = [other, then]
        choice.values = [opposite(choice.values[0])]
    return None


def shaped_loop(block, left):
    """Makes a block that begins again a loop of C."""
    body = block.lists[0]
    if not uses([body], block.label):
        return body + left if falls(body) else body
    end = Label('exit', None, 0)
    return [Loop(block.label, end, body + [Branch(end)] if falls(body) else body), *left]


def shaped_block(block, left, after):
    body = block.lists[0]
    end = short_end(left)
    if end:
        body = instead(body, block.label, end)
    body = shaped_list(body, after | {block.label})
    if not uses([body], block.label):
        return body + left if falls(body) else body
    block.lists = [body]
    return None


def shaped(statements):
    """The statements in the shape of C's."""
    count = None
    while True:
        statements = shaped_list(statements, NOWHERE)
        found = [len(targets(one)) for one in each(statements)]
        if found == count:
            return statements
        count = found


# ---- Forms: loops that ask a condition, and switches with what their cases do.

def formed(statements, after=NOWHERE):
    """The statements of a list with loops and switches as C has them."""
    kept = []
    for i, statement in enumerate(statements):
        left = statements[i + 1:]
        behind = labels_of(left, after)
        if isinstance(statement, Block):
            cases = cases_of(statement, left, behind, after)
            if cases:
                kept += formed(cases[:-1])
                made, whole = cases[-1]
                made.lists = [formed(body, frozenset((label,)) if label else after) for body, label in
                              zip(made.lists, [*made.labels[1:], made.label])]
                kept.append(made)
                if whole:
                    return kept
                continue
            statement.lists = [formed(statement.lists[0], behind | {statement.label})]
        elif isinstance(statement, Switch):
            statement = with_numbers(Cases(statement.values[0], [], None), statement)
        elif isinstance(statement, Loop):
            form_loop(statement, behind)
        else:
            statement.lists = [formed(body, behind) for body in statement.lists]
        kept.append(statement)
    return kept


def form_loop(loop, behind):
    """Gives a loop its condition, which is asked where a round begins or ends."""
    body, ends = loop.lists[0], behind | {loop.exit}

    def asks(statement):
        return isinstance(statement, If) and not statement.lists[1] and len(statement.lists[0]) == 1 and (
            goes(statement.lists[0], ends))
    if body and asks(body[0]):
        loop.ask('while', opposite(body[0].values[0]), body[1:])
    elif len(body) > 1 and asks(body[-1]) and not uses([body], loop.label):
        loop.ask('do', opposite(body[-1].values[0]), body[:-1])
    loop.lists = [formed(loop.lists[0], NOWHERE if loop.kind == 'do' else frozenset((loop.label,)))]


def chain(block):
    """Of blocks within each other whose innermost goes to their ends by a table: the labels and what stands behind
    each, from the innermost on, what is done before, and the switch. None of other blocks."""
    body = block.lists[0]
    if body and isinstance(body[-1], Switch):
        return [], body[:-1], body[-1]
    for i, statement in enumerate(body):
        if isinstance(statement, Block) and not statement.is_loop:
            found = chain(statement)
            if found is None:
                return None
            levels, before, switch = found
            return [*levels, (statement.label, body[i + 1:])], body[:i] + before, switch
        if statement.lists:
            return None
    return None


def cases_of(block, left, behind, after):
    """What stands in the place of such a block: what is done before, and a pair: the cases, and whether what was left
    behind the block is in them. None of other blocks."""
    found = chain(block)
    if found is None:
        return None
    levels, before, switch = found
    codes = [body for _, body in levels]
    to_end = sum(uses(codes, label) for label in after)
    whole = bool(left) and to_end > uses(codes, block.label) and block.label in targets(switch)
    cases = Cases(switch.values[0], [*levels, (block.label, left)] if whole else levels, None if whole else block.label)
    return [*before, (with_numbers(cases, switch), whole)]


def with_numbers(cases, switch):
    """The cases, with the numbers that lead to them by a table."""
    for number, label in enumerate(switch.labels):
        if label is not switch.default:
            cases.add(number, label)
    cases.add(None, switch.default)
    return cases
