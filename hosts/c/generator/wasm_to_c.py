"""wasm_to_c.py MODULE.wat SAME.wat > C: the functions of a WebAssembly module as C.

Both are wasm2wat's text of one module with 64-bit addresses, linked to two places, whose instructions are those of
whole numbers alone. A number that differs between them is an address: of the module's tables, which the C has as an
array. All other addresses are the caller's. So the C takes no memory, and has no state. What a function takes of the
module's stack is an array of its own, since none leaves the stack otherwise than it found it."""
import re
import sys
import textwrap
from collections import Counter

from facts import Bytes, Refusing, Width, find_greatest, find_places, stack_answer
from module import lines_of, module_of, without_guards
from printing import Printer
from sources import Sources, first_sentence
from structure import formed, shaped
from texts import Texts, type_of
from tree import Builder, If, refuse
from units import Piece, assign, print_all
from webs import count_reads, folded, split, without_blocks

# So many lines in C are short, and so many short enough for a function that is called at so few places.
SHORT, MIDDLE, FEW = 80, 200, 3
# The exports that C may leave out, with what they alone need, or have alone. They have maps: a tree of them is taken
# apart by calls that go in a circle, one for each level.
CHECK = {'$trac_engine_check', '$trac_engine_check_zeroed', '$trac_engine_trace_step'}
TREE = 'btree::node::Node::destroy'
# The exports that only the module for browsers has.
OF_BROWSERS = {'$trac_engine_value_source'}


class Function:
    """A function on its way from the module to C."""

    def __init__(self, module, name, kinds, body, sources=None):
        self.name, self.c_name, self.is_export = name, module.names[name], name in module.exports
        self.head = module.heads[name]
        builder = Builder(module, self.head, kinds, without_guards(body))
        statements = without_blocks(builder.build())
        self.params, self.end_of_stack = split(builder, statements)
        self.body = statements
        # Whether all bits of the result matter. The bytes of the stack that it takes.
        self.is_wide, self.frame = self.is_export, 0
        count_reads(self.body)
        find_places(self)
        self.body = answered(self.body)
        Refusing(self)
        self.body = folded(self.body)
        self.source = sources and sources.of(self.c_name)
        names = sources and sources.names(self.c_name, self.head.params, bool(self.head.results))
        for i, param in enumerate(self.params):
            param.name = names[i] if names else f'a{i + 1}'

    def result(self):
        """The type of its result in C."""
        if not self.head.results:
            return 'void'
        return 'u32' if self.head.results[0] == 'i32' else 'u64' if self.is_wide else 'word'

    def place(self):
        """Where it stands: the number of its crate, what that is called, its file and line."""
        if self.source:
            number, crate, file, line = self.source.place
            return number, f'The crate {crate}', file, line
        return 1000, 'What the compiler makes and takes from its own libraries', '', 0

    def said(self):
        """What is said of it: the first sentence of its docstring, or what it is."""
        is_copy = self.c_name[-1].isdigit() and '<' in self.name
        if self.source:
            doc = first_sentence(self.source.doc) or f'{self.name.strip("$")}.'
            return f'{doc} (A copy for other types.)' if is_copy else doc
        path = re.sub(r'(::)?<.*', '', self.name.strip('$'))
        if path.startswith('__'):
            return f'{path}: numbers of 128 bits, which WebAssembly lacks.'
        return f'{path}{", for other types" if is_copy else ""}: of a library of the compiler.'

    def text_of_head(self):
        params = ', '.join(f'{type_of(param)} {param.name}' for param in self.params)
        return f"{self.result()} {self.c_name}({params or 'void'})"


def answered(statements):
    """The statements, without choices whose condition asks if there is enough of the stack."""
    kept = []
    for one in statements:
        one.lists = [answered(inner) for inner in one.lists]
        answer = answer_of(one.values[0]) if isinstance(one, If) else None
        kept += [one] if answer is None else one.lists[1 - answer]
    return kept


def answer_of(condition):
    """1 if a condition that asks for the stack holds, 0 if it doesn't, None of another one."""
    if condition.name == 'eq' and condition.args[1].data == 0:
        answer = answer_of(condition.args[0])
        return None if answer is None else 1 - answer
    return stack_answer(condition) if condition.name[:2] in ('ge', 'gt', 'lt', 'le') else None


def lines_in_c(module, functions, function):
    """The lines of a function in C."""
    body = formed(shaped(function.body))
    count_reads(body)
    lines = Printer(Texts(module, functions, function), function).print(body)
    text = '\n'.join(lines)
    begin = []
    if function.frame and 'frame' in text:
        begin = [f'    u64 room[{(function.frame + 7) // 8}];', '    const word frame = (word)room;']
    begin += [f'    (void){param.name};' for param in function.params if not param.reads and not param.sets]
    end = ['    return 0;'] if function.head.results and not lines[-1].strip().startswith('return') else []
    return begin + lines + end


def calls_of(module):
    """Which functions each one calls."""
    return {name: {words[1] for words in body if words[0] == 'call'} for name, _, body in module.functions}


def refuse_circles(module):
    """Refuses functions that call themselves, so that it is known how much of C's stack they take. What takes a map's
    tree apart does, once for each of its few levels."""
    calls, seen = calls_of(module), set()

    def look(name, above):
        if name in above:
            refuse(f'{name} calls itself')
        if name not in seen:
            for callee in calls.get(name, set()) - ({name} if TREE in name else set()):
                look(callee, (*above, name))
            seen.add(name)
    for name in calls:
        look(name, ())


def reached(module, exports):
    """The functions that these exports call, and they themselves."""
    calls, found, left = calls_of(module), set(), list(exports)
    while left:
        name = left.pop()
        if name not in found:
            found.add(name)
            left += calls[name]
    return found


def keep_exports_of_c(module):
    """Leaves out of a module the exports that C hasn't, and the functions that they alone need."""
    module.exports = [name for name in module.exports if name not in OF_BROWSERS]
    kept = reached(module, module.exports)
    module.functions = [function for function in module.functions if function[0] in kept]


def hands_on(body, inner, count):
    """Whether a body does nothing but hand its parameters, so many, on to a function, and give what that gives."""
    whole = [['local.get', str(i)] for i in range(count)] + [['call', inner]]
    end = [words[0] for words in body[len(whole):]]
    return body[:len(whole)] == whole and (
        not end or end == ['local.set', 'local.get'] and body[-2][1] == body[-1][1])


def merge_exports(module):
    """Gives each export the body of the function of the source, to which it hands its parameters on."""
    functions = {name: (kinds, body) for name, kinds, body in module.functions}
    called = [words[1] for _, body in functions.values() for words in body if words[0] == 'call']
    for name in module.exports:
        inner, body = f'$rattle::export_{name.strip("$")}', without_guards(functions[name][1])
        if called.count(inner) == 1 and hands_on(body, inner, len(module.heads[name].params)):
            functions[name] = functions.pop(inner)
    module.functions = [(name, *function) for name, function in functions.items()]


def functions_of(module, sources=None):
    """The functions of a module by their names there, with all that is known of them."""
    refuse_circles(module)
    functions = {name: Function(module, name, kinds, body, sources) for name, kinds, body in module.functions
                 if name in module.heads}
    find_greatest(functions)
    Width(functions)
    for function in functions.values():
        Bytes(function)
    return functions


def pieces_of(module, sources=None):
    """The functions in C, by their names there."""
    functions = functions_of(module, sources)
    calls = {name: Counter(words[1] for words in body if words[0] == 'call' and words[1] in functions)
             for name, _, body in module.functions}
    total = sum((calls[name] for name in functions), Counter())
    pieces = {}
    for name, function in functions.items():
        lines = lines_in_c(module, functions, function)
        # A function that calls no other is a part of those that call it, if it is short enough for that, or if its
        # source asks for it.
        is_short = len(lines) <= (MIDDLE if total[name] <= FEW else SHORT)
        is_small = not calls[name] and (is_short or bool(function.source and function.source.is_part))
        pieces[function.c_name] = Piece(
            function.place(), function.said(), function.text_of_head(), lines,
            {module.names[callee]: count for callee, count in calls[name].items()}, is_small)
    return pieces


def print_instructions(functions):
    """How often each instruction stands in these functions, as a comment of C."""
    counts = Counter(words[0] for _, _, body in functions for words in without_guards(body))
    print('/* Instructions:')
    print(textwrap.fill(', '.join(f'{name} {count}' for name, count in sorted(counts.items())), 118,
                        initial_indent=' * ', subsequent_indent=' * '))
    print(' */')


def main(path, other):
    module = module_of(lines_of(path), lines_of(other))
    keep_exports_of_c(module)
    merge_exports(module)
    pieces = pieces_of(module, Sources())
    of_check, of_runs = reached(module, CHECK), reached(module, {*module.exports} - CHECK)
    for name, c_name in module.names.items():
        if c_name in pieces:
            pieces[c_name].of_runs, pieces[c_name].of_check = name in of_runs, name in of_check
    print_instructions([function for function in module.functions if function[0] in module.heads])
    assign(pieces, [module.names[name] for name in module.exports])
    print_all(pieces, module.table(), module.rows())


if __name__ == '__main__':
    main(*sys.argv[1:])
