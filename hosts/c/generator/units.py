"""Cuts the functions of the engine into units that are compiled beside each other, and prints them.

The first units are all that a run needs, those behind them what trac_check and trac_trace_step need beside. Each
function stands in one unit, but for the small ones that become parts of those that call them: these stand in each unit
that needs them. What is compiled is a number, UNITS, with a bit for each unit; bit 0 is what these two share with a
run, for a compiler that gets them alone."""
import textwrap
from itertools import groupby

OF_RUNS, OF_CHECK = 4, 3
SHARED = 1
# A function of twice the lines takes more than two times and a half as long: 2 to this power. Measured with gcc 12.
LONG = 1.4
# The functions of trac.h and the tables, which stand in the first unit, as such a time.
API = 52000


class Piece:
    """A function: where it stands in the sources, its crate first, what is said of it, the text of its head, its lines,
    how often it calls which others, and who needs it."""

    def __init__(self, place, said, head, lines, calls, is_small):
        self.place, self.said, self.head, self.lines, self.calls, self.is_small = (
            place, said, head, lines, calls, is_small)
        self.of_runs = self.of_check = True
        # The bits of the units that it stands in, and of those that know it.
        self.bits = self.known = 0


class Cut:
    """Groups of functions, which grow together by the calls between them, `calls`, until each would be heavier than a
    unit."""

    def __init__(self, weights, calls):
        self.weights = dict(weights)
        self.members = {name: [name] for name in weights}
        self.ties = {name: {} for name in weights}
        for caller in weights:
            for callee, count in calls[caller].items():
                if callee in weights and callee != caller:
                    self.tie(caller, callee, count)

    def tie(self, one, other, count):
        for near, far in ((one, other), (other, one)):
            self.ties[near][far] = self.ties[near].get(far, 0) + count

    def join(self, one, other):
        """Makes two groups one."""
        self.weights[one] += self.weights.pop(other)
        self.members[one] += self.members.pop(other)
        for far, count in self.ties.pop(other).items():
            del self.ties[far][other]
            if far != one:
                self.tie(one, far, count)

    def best_pair(self, most):
        """Of the pairs of groups that aren't too heavy together the one with most calls between them for its weight,
        None where there is no such pair."""
        pairs = [(count / (self.weights[one] + self.weights[other]), one, other)
                 for one, ties in self.ties.items() for other, count in ties.items()
                 if one < other and self.weights[one] + self.weights[other] <= most]
        return max(pairs, default=None)

    def into(self, count, beside):
        """The functions of each of so many units. The first has what weighs `beside` too."""
        most = (sum(self.weights.values()) + beside) / count
        while pair := self.best_pair(most):
            self.join(*pair[1:])
        units = [[0 if unit else beside, []] for unit in range(count)]
        for name in sorted(self.weights, key=lambda name: (-self.weights[name], name)):
            lightest = min(units, key=lambda unit: unit[0])
            lightest[0] += self.weights[name]
            lightest[1] += self.members[name]
        return [names for _, names in units]


def weight(pieces, piece):
    """How long a function takes to compile, by its lines and those of what becomes a part of it."""
    lines = len(piece.lines) + sum(len(pieces[name].lines) * count for name, count in piece.calls.items()
                                   if pieces[name].is_small)
    return lines ** LONG


def assign(pieces, entries):
    """Puts each function into its units. `entries` are those that the functions of trac.h call, which stand in the
    first unit of a run and in the first of trac_check."""
    for first, count, of_runs in ((1, OF_RUNS, True), (1 + OF_RUNS, OF_CHECK, False)):
        weights = {name: weight(pieces, piece) for name, piece in pieces.items()
                   if piece.of_runs == of_runs and not piece.is_small}
        calls = {name: pieces[name].calls for name in weights}
        for unit, names in enumerate(Cut(weights, calls).into(count, API if of_runs else 0), first):
            for name in names:
                pieces[name].bits |= 1 << unit | (SHARED if of_runs and pieces[name].of_check else 0)
    for piece in list(pieces.values()):
        piece.known |= piece.bits
        for name in piece.calls:
            pieces[name].known |= piece.bits
            pieces[name].bits |= piece.bits if pieces[name].is_small else 0
    for name in entries:
        unit = 1 << (1 if pieces[name].of_runs else 1 + OF_RUNS)
        pieces[name].known |= unit
        pieces[name].bits |= unit if pieces[name].is_small else 0


def print_table(table):
    """The bytes of the tables, which the first unit has for all."""
    print(f'\n#ifdef TRAC_UNIT\nextern INTERNAL const u8 tables[{len(table)}];\n#endif')
    print(f'#if UNITS & {1 << 1 | SHARED:#x}\n#ifndef TRAC_UNIT\nstatic\n#endif\nconst u8 tables[{len(table)}] = {{')
    for i in range(0, len(table), 24):
        print('    ' + ', '.join(map(str, table[i:i + 24])) + ',')
    print('};\n#endif')


def print_rows(rows):
    """What tells whether some bytes of the tables have one of an address, which stand in these rows."""
    def around(begin, end):
        return f'count && offset + (count - 1) - {begin}u < {end - begin - 1}u + count'
    ways = ' ||\n        '.join(f'({around(begin, end)})' for begin, end in rows)
    # One comparison tells of most places that they lie before the first row or behind the last.
    print('\n/* Whether so many bytes behind the beginning of the tables have one of an address. */')
    print(f"""APART int is_in_row(word offset, word count) {{
    return {ways};
}}
static INLINE int has_address(word offset, word count) {{
    return {around(rows[0][0], rows[-1][1])} && is_in_row(offset, count);
}}""" if rows else 'static INLINE int has_address(word offset, word count) { return (void)offset, (void)count, 0; }')
    print("""/* A place where so many bytes have none of them, of the tables or elsewhere. */
static INLINE word no_address(word place, word count) {
    if (has_address(place - TABLES, count))
        trap();
    return place;
}
/* A word, which may be an address of the tables: it stands there as how far behind their beginning it is. */
HELPER u64 table64(word place) {
    const word offset = place - TABLES;
    if (!has_address(offset, 8))
        return load64(place);
    if (offset % 8)
        trap();
    return TABLES + load_word(place);
}""")


def print_groups(names, bits_of, show):
    """Shows each of the names, those behind each other that are in the same units together."""
    for bits, group in groupby(names, key=bits_of):
        print(f'\n#if UNITS & {bits:#x}')
        for name in group:
            show(name)
        print('#endif')


def is_shared(piece):
    """Whether another unit knows a function than those that it stands in."""
    return piece.known != piece.bits and not piece.is_small


def print_all(pieces, table, rows):
    """The tables and the functions as C. What units share is static where the engine is compiled whole."""
    def head(name):
        kind = 'static INLINE' if pieces[name].is_small else 'INTERNAL' if is_shared(pieces[name]) else 'static'
        return f'{kind} {pieces[name].head}'

    def show(name):
        said = textwrap.fill(f'{pieces[name].said} */', 117, initial_indent='/* ', subsequent_indent=' * ')
        print(f'\n{said}' if pieces[name].said else '')
        print(textwrap.fill(f'{head(name)} {{', 120, subsequent_indent='    '), *pieces[name].lines, '}', sep='\n')
    names = sorted(pieces, key=lambda name: (*pieces[name].place[:1], *pieces[name].place[2:], name))
    print('\n#ifdef TRAC_UNIT')
    for name in ('tables', *(name for name in names if is_shared(pieces[name]))):
        print(f'#define {name} trac_unit_{name}')
    print('#endif')
    print_table(table)
    print_rows(rows)
    print_groups(names, lambda name: pieces[name].known, lambda name: print(
        textwrap.fill(f'{head(name)};', 120, subsequent_indent='    ')))
    for crate, group in groupby(names, key=lambda name: pieces[name].place[1]):
        print(f'\n/* ---- {crate} ---- */')
        print_groups(group, lambda name: pieces[name].bits, show)
