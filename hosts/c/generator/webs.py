"""Gives each use of a variable its own: what is set in one place and read in another is one variable, and what has
nothing to do with that is another one, though the module has one place for both. Then what is read once becomes a part
of what reads it."""
from zlib import crc32

from tree import GREATEST, Assign, Block, Branch, Do, If, Move, Return, Store, Switch, Value, Variable, const, get


class Definition:
    """Where a variable is set: by a statement, or where the function begins."""

    def __init__(self, variable, statement=None):
        self.variable, self.statement, self.parent = variable, statement, self
        self.web = None

    def root(self):
        found = self
        while found.parent is not found:
            found = found.parent
        self.parent = found
        return found

    def join(self, other):
        one, other = self.root(), other.root()
        other.parent = one
        return one


class Splitter:
    """Follows which definitions reach which uses, on each way through a function."""

    def __init__(self, params, end_of_stack):
        self.first = {variable: Definition(variable) for variable in params}
        self.first[end_of_stack] = Definition(end_of_stack)
        self.end_of_stack = end_of_stack
        self.definitions, self.uses, self.left = {}, {}, {}

    def definition(self, statement):
        found = self.definitions.get(statement)
        if found is None:
            found = self.definitions[statement] = Definition(statement.variable, statement)
        return found

    def reaching(self, variable, reached):
        """The definitions that reach a use: what nothing has set is 0."""
        found = reached.get(variable)
        if not found:
            if variable not in self.first:
                self.first[variable] = Definition(variable)
            found = reached[variable] = frozenset((self.first[variable],))
        return found

    def use(self, value, reached):
        if value.name == 'get' and value.data.is_local:
            for one in self.reaching(value.data, reached):
                self.uses[value] = self.uses[value].join(one) if value in self.uses else one
        for arg in value.args:
            self.use(arg, reached)

    def follow(self, statements, reached):
        """What is reached behind these statements, None if that is never. What is never reached is taken away."""
        for i, statement in enumerate(statements):
            for value in statement.values:
                self.use(value, reached)
            reached = self.behind(statement, reached)
            if reached is None:
                del statements[i + 1:]
                return None
        return reached

    def behind(self, statement, reached):
        if isinstance(statement, Assign):
            if statement.variable.is_local:
                reached[statement.variable] = frozenset((self.definition(statement),))
        elif isinstance(statement, If):
            ways = [self.follow(way, dict(reached)) for way in statement.lists]
            return merged(*ways, self.first)
        elif isinstance(statement, Block):
            return (self.around_loop if statement.is_loop else self.around)(statement, reached)
        elif isinstance(statement, (Branch, Switch)):
            for label in {statement.label} if isinstance(statement, Branch) else {*statement.labels, statement.default}:
                self.left[label] = merged(self.left.get(label), reached, self.first)
            return None
        elif statement.ends:
            return None
        return reached

    def around(self, block, reached):
        self.left[block.label] = None
        end = self.follow(block.lists[0], reached)
        return merged(self.left.pop(block.label), end, self.first)

    def around_loop(self, block, reached):
        """The same of a loop, until nothing more reaches its beginning."""
        while True:
            self.left[block.label] = None
            end = self.follow(block.lists[0], dict(reached))
            again = merged(reached, self.left.pop(block.label), self.first)
            if again == reached:
                return end
            reached = again


def merged(one, other, first):
    """What is reached on one way or the other."""
    if one is None or other is None or one is other:
        return dict(one if other is None else other) if one is not None or other is not None else None
    return {variable: one[variable] | other[variable] if variable in one and variable in other else
            one.get(variable, other.get(variable)) | unset(variable, first) for variable in {**one, **other}}


def unset(variable, first):
    """What is reached where nothing has set a variable."""
    if variable not in first:
        first[variable] = Definition(variable)
    return frozenset((first[variable],))


def split(builder, statements):
    """Gives the variables of a tree their webs. Gives the variables of the parameters."""
    splitter = Splitter(builder.params, builder.end_of_stack)
    splitter.follow(statements, {one: frozenset((splitter.first[one],))
                                 for one in (*builder.params, builder.end_of_stack)})

    def web_of(definition):
        root = definition.root()
        if root.web is None:
            root.web = Variable(root.variable.kind)
            root.web.is_end_of_stack = root.variable is builder.end_of_stack
        return root.web
    used = {}
    for value, definition in splitter.uses.items():
        used[value] = get(web_of(definition))
    renamed(statements, used, {statement: web_of(one) for statement, one in splitter.definitions.items()})
    begun = {}
    for variable in dict.fromkeys([*builder.locals, builder.end_of_stack, *splitter.first]):
        definition = splitter.first.get(variable)
        if definition is None:
            continue
        if variable in builder.params or variable is builder.end_of_stack:
            begun[variable] = web_of(definition)
        elif definition.root().web is not None:
            # a variable that is 0 where the function begins, and read
            statements.insert(0, Assign(web_of(definition), const(variable.kind, 0)))
    for i, param in enumerate(builder.params):
        begun[param].param = i
    return [begun[param] for param in builder.params], begun[builder.end_of_stack]


def replaced(value, used):
    """A value with others in the place of some in it."""
    found = used.get(value)
    if found is not None:
        return found
    if not value.args:
        return value
    args = [replaced(arg, used) for arg in value.args]
    return value.with_args(args) if any(a is not b for a, b in zip(args, value.args)) else value


def renamed(statements, used, variables):
    for statement in statements:
        statement.values = [replaced(value, used) for value in statement.values]
        if statement in variables:
            statement.variable = variables[statement]
        for inner in statement.lists:
            renamed(inner, used, variables)


# ---- Expressions

def without_blocks(statements):
    """The statements, without blocks that nothing leaves or begins again by a branch."""
    kept = []
    for one in statements:
        one.lists = [without_blocks(inner) for inner in one.lists]
        if isinstance(one, Block) and not one.label.uses:
            kept += one.lists[0]
        else:
            kept.append(one)
    return kept


def each(statements):
    """All statements, those within others too."""
    for statement in statements:
        yield statement
        for inner in statement.lists:
            yield from each(inner)


def count_reads(statements):
    """Notes of each variable how often it is read, and what it gets."""
    for statement in each(statements):
        for variable in {one for value in statement.values for one in value.reads}:
            variable.reads, variable.sets = 0, []
        if isinstance(statement, Assign):
            statement.variable.reads, statement.variable.sets = 0, []
    for statement in each(statements):
        for value in statement.values:
            for one in value.walk():
                if one.name == 'get':
                    one.data.reads += 1
        if isinstance(statement, Assign):
            statement.variable.sets.append(statement.values[0])


def without_unread(statements):
    """The statements, without what nothing reads."""
    kept = []
    for statement in statements:
        statement.lists = [without_unread(inner) for inner in statement.lists]
        if isinstance(statement, Assign) and not statement.variable.reads:
            if statement.values[0].is_call:
                kept.append(Do(statement.values[0]))
        else:
            kept.append(statement)
    return kept


class Folder:
    """Puts what is read once into what reads it, where nothing between the two changes it."""

    def __init__(self):
        self.has_changed = False

    def fold(self, statements):
        """The statements of a list, with fewer variables."""
        kept = []
        for statement in statements:
            statement.lists = [self.fold(inner) for inner in statement.lists]
            kept.append(statement)
        i = len(kept) - 1
        while i >= 0:
            statement = kept[i]
            if isinstance(statement, Assign) and len(statement.variable.sets) == 1 and (
                    statement.variable.param is None) and self.moves(kept, i):
                del kept[i]
                self.has_changed = True
            i -= 1
        return kept

    def moves(self, kept, i):
        """Whether what a statement sets has become a part of a later one."""
        variable, value = kept[i].variable, kept[i].values[0]
        is_copy = value.name in ('const', 'table') or value.name == 'get' and value.data.param is not None and (
            not value.data.sets)
        if is_copy and reads_of(kept[i + 1:], variable) == variable.reads:
            self.put(kept[i + 1:], variable, value)
            return True
        if variable.reads != 1:
            return False
        for later in kept[i + 1:]:
            if any(variable in one.reads for one in later.values):
                return self.into(later, variable, value)
            if changes(later, value) or not is_passed(later):
                return False
        return False

    def put(self, statements, variable, value):
        """Puts a value in the place of a variable everywhere."""
        for statement in each(statements):
            statement.values = [with_value(one, variable, value) if variable in one.reads else one
                                for one in statement.values]

    def into(self, later, variable, value):
        if not fits(later, variable, value):
            return False
        later.values = [with_value(one, variable, value) if variable in one.reads else one for one in later.values]
        return True


def reads_of(statements, variable):
    """How often a variable is read there."""
    return sum(one.name == 'get' and one.data is variable for statement in each(statements)
               for value in statement.values if variable in value.reads for one in value.walk())


def with_value(whole, variable, value):
    if whole.name == 'get':
        return value if whole.data is variable else whole
    if variable not in whole.reads:
        return whole
    return whole.with_args([with_value(arg, variable, value) for arg in whole.args])


def fits(later, variable, value):
    """Whether a value can stand in a statement for a variable: nothing in it becomes too long, and nothing is done in
    another order."""
    for one in later.values:
        if variable in one.reads:
            if one.size + value.size > GREATEST and value.name != 'get':
                return False
            whole = one
    others = [one for one in later.values if one is not whole]
    if not value.is_call:
        # C may read memory behind a call of the same statement, unless the call is handed what is read
        return not value.is_memory or all(variable in part.reads for one in later.values for part in one.walk()
                                          if part.name == 'call')
    # a call, or a division that may end the program, is all that a statement does
    if isinstance(later, (Assign, Return, If)) or len(others) == 0:
        return not any(one.is_call or one.is_memory for one in later.values) and not is_chosen(whole, variable)
    return False


def is_chosen(whole, variable):
    """Whether a variable is read where a choice may leave it out."""
    return any(one.name == 'select' and any(variable in arg.reads for arg in one.args[1:]) for one in whole.walk())


def is_passed(statement):
    """Whether what stands in front of a statement may as well stand behind it: it is no more than one step."""
    return all(len(inner) <= 1 and all(one.ends for one in inner) for inner in statement.lists)


def changes(statement, value):
    """Whether a value may be another behind a statement, or what it does be out of order."""
    if value.is_call:
        return True
    for one in each([statement]):
        if isinstance(one, Assign) and one.variable in value.reads:
            return True
        if value.is_memory and (isinstance(one, (Store, Move)) or any(v.is_call for v in one.values)):
            return True
    return False


# ---- What doesn't hang on the names and the order that the compiler found

SYMMETRIC = frozenset('add mul and or xor eq ne'.split())
MIRRORED = {'gt_u': 'lt_u', 'gt_s': 'lt_s', 'ge_u': 'le_u', 'ge_s': 'le_s'}
MIRRORED |= {other: one for one, other in MIRRORED.items()}
# Numbers of names go up to the first, and rest on so many variables behind each other.
MOST, NEAR = 999, 2


def shape(value, depth):
    """What makes a value, without the names of variables: what these get, so far as `depth` goes."""
    if value.name == 'get':
        variable = value.data
        if variable.param is not None:
            return variable.name
        return shape(variable.sets[0], depth - 1) if depth and len(variable.sets) == 1 else variable.kind
    data = value.data if value.name != 'table' else 0
    return value.name, value.kind, data, [shape(arg, depth) for arg in value.args]


def number_of(what):
    """A number that what something is made of always has."""
    return crc32(repr(what).encode()) % MOST + 1


def rank(value):
    """Where a value stands among those that may change places: the longer first, constants last."""
    return value.name == 'const', value.name == 'get', -value.size, value.name, number_of(shape(value, 1))


def ordered(value):
    """The value, with what may change places in one order."""
    args = [ordered(arg) for arg in value.args]
    name = value.name
    if name in SYMMETRIC or name in MIRRORED:
        one, other = map(rank, args)
        if other < one or other == one and name.startswith('g'):
            args, name = args[::-1], MIRRORED.get(name, name)
    return value if name == value.name and all(a is b for a, b in zip(args, value.args)) else Value(
        name, value.kind, *args, data=value.data)


def folded(statements):
    """The statements, with as few variables as can be."""
    while True:
        count = None
        while count != (count := sum(1 for _ in each(statements))):
            count_reads(statements)
            statements = without_unread(statements)
        count_reads(statements)
        folder = Folder()
        statements = folder.fold(statements)
        if not folder.has_changed:
            for one in each(statements):
                one.values = [ordered(value) for value in one.values]
            return statements
