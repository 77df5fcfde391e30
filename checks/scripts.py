"""Makes scripts from the grammar of the language, for covering.c: calls of each function with forms, gaps, numbers of
all lengths, bit strings and many forms, in ample and in little room."""
from random import Random
from struct import pack

FUNCTIONS = dict(zip('ds ss cl cs cc cn in cr dd da ln pf ps rs rc cm eq gr ad su ml dv bu bi bc bs br hl zz'.split(),
                     (9, 9, 9, 4, 6, 5, 5, 3, 3, 1, 3, 3, 6, 1, 1, 1, 4, 5, 5, 5, 5, 5, 3, 3, 3, 3, 3, .3, 1)))
LONG = 'a name that is longer than any name of a form in an example ' * 2
NAMES = ['A', 'l', 'F', 'name', 'N', '', 'B1', 'longer name', 'AB', 'Ab', 'x',
         *(LONG[:length] + end for length in (31, 70) for end in ('', 'b'))]
PARTS = ['', 'a', '-', 'ab', 'b', '1', '2', '0', 'X']
LENGTHS = (*range(46), 60, 77, 100)
EDGES = [2**63, 2**63 - 1, 2**64, 2**64 - 1, 10**18, 10**19, 2**127, 2**127 - 1, 2**128 - 1, 10**38]
DEEPEST, LONGEST = 4, 65000


class Grammar:
    """Makes scripts."""

    def __init__(self, seed):
        self.random = Random(seed)
        self.pick = self.random.choice

    def digits(self, letters, lengths):
        return ''.join(self.pick(letters) for _ in range(self.pick(lengths)))

    def name(self):
        """A name of a form: one of a few, one of `forms`, or one that differs from another of its length in a place."""
        if self.random.random() < .6:
            return self.pick(NAMES)
        if self.random.random() < .5:
            return f'f{self.pick(range(200))}'
        letters = list(LONG[:self.pick((4, 7, 8, 9, 15, 16, 17, 31, 32, 33, 64, 66, 90))])
        letters[self.pick(range(len(letters)))] = self.pick('ab')
        return ''.join(letters)

    def number(self):
        digits = str(self.pick(EDGES)) if self.random.random() < .1 else self.digits('0123456789', LENGTHS)
        return self.pick(('', '', 'ab', 'Apples', '+', '-', LONG[:40])) + self.pick(('', '-', '-', '+')) + digits

    def bits(self):
        return self.pick(('', 'x', '9')) + self.digits('01234567', (*range(24), 42, 43, 44, 60, 130))

    def text(self, depth):
        made = (lambda: self.digits('ab-, \n\t', range(12)), lambda: self.pick('ab') * self.pick((1, 3, 9, 30, 300)),
                lambda: f'({self.text(depth + 1)})',
                lambda: '#' * self.pick(range(4)) + self.pick(('', '(', ')', '()')),
                lambda: self.digits('abX-', range(40)), lambda: self.pick(NAMES), lambda: self.call(depth + 1))
        return self.pick(made)() if depth < DEEPEST else 'q'

    def argument(self, depth):
        made = (lambda: self.text(depth), lambda: self.text(depth), self.number, lambda: self.pick(NAMES),
                lambda: self.pick(NAMES), lambda: self.call(depth + 1), lambda: self.pick(PARTS))
        return self.pick(made)() if depth < DEEPEST else self.pick(PARTS)

    def arguments(self, name, depth):
        """The arguments of a call of a function: numbers, bit strings or the name of a form where it takes them,
        mostly."""
        count = self.pick((0, 1, 2, 2, 3, 3, 4, 5, 6, 9))
        kind = self.number if name in ('ad', 'su', 'ml', 'dv', 'gr') else self.bits if name[0] == 'b' else None
        if kind:
            return [kind() if self.random.random() < .8 else self.argument(depth) for _ in range(min(count, 4))]
        some = [self.argument(depth) for _ in range(count)]
        if name == 'cn' and some:
            some[0] = self.pick(('1', '-1', '3', '-3', '0', '99', '-99', '12345678901234567890', self.number()))
        return [self.name(), *some] if name not in ('ps', 'eq', 'rs', 'rc', 'cm', 'hl', 'ln', 'da') else some

    def call(self, depth=0):
        [name] = self.random.choices(list(FUNCTIONS), list(FUNCTIONS.values()))
        words = [name.upper() if self.random.random() < .05 else name, *self.arguments(name, depth)]
        return '#' * self.pick((1, 1, 1, 2)) + f"({','.join(words)}" + self.pick((')',) * 30 + ('',))

    def forms(self):
        """Many forms, which are found, deleted and defined again."""
        count = self.pick((9, 12, 20, 40, 90, 200))
        named = self.pick((lambda i: f'f{i % 97}', lambda i: f'f{i % 97}', lambda i: self.name()))
        made = ''.join(f'#(ds,{named(i)},{self.pick(("v", "a-b", "", "xyz" * 5))})' for i in range(count))
        for _ in range(self.pick(range(60))):
            one, other = (self.pick(range(count + 9)) for _ in range(2))
            made += self.pick((f'#(cl,f{one})', f'#(dd,f{one},f{other})', f'#(ds,f{one},w)', f'#(ss,f{one},-,x)',
                               '#(ln,;)', f'#(cs,f{one})'))
        return made

    def many_gaps(self):
        """A form with gaps of ordinals up to some thousand, which is displayed, and called with fewer arguments."""
        commas = ',' * self.pick((9, 10, 99, 100, 101, 999, 1000, 1001, 9999, 10000, 30000))
        return f"#(ds,F,{self.text(1)}-b)#(ss,F{commas}b,-)#(pf,F)#(cl,F,{self.text(1)})#(cs,F)#(pf,F)"

    def gaps(self):
        """A form with gaps, which is called and taken apart."""
        filled = ','.join(self.argument(1) for _ in range(3))
        return (f"#(ds,F,{self.text(1)}-{self.text(1)}X{self.text(1)})#(ss,F,-,X,a,ab)#(cl,F,{filled})#(cs,F)#(cc,F)"
                "#(cn,F,2)#(in,F,a,Z)#(cr,F)#(pf,F)'")

    def script(self):
        """The bytes of a script, sometimes with wrong bytes."""
        made = ''.join(self.pick((self.call, self.call, self.call, lambda: self.text(0)))()
                       + self.pick(('', '', "'", "'", '\n')) for _ in range(self.pick((1, 2, 4, 8, 16))))
        begin = self.pick((self.forms, self.gaps, self.many_gaps, *(str,) * 6))()
        given = bytearray((begin + made).encode('latin-1'))
        if given and self.random.random() < .08:
            for _ in range(3):
                given[self.pick(range(len(given)))] = self.pick(range(256))
        return bytes(given)

    def choices(self):
        """The bytes that choose cells, steps, pieces, steps of a turn and room: mostly many cells and steps."""
        some = range(256)
        return bytes((self.pick((255, 255, 255, self.pick(some), self.pick(range(30)))),
                      self.pick((255, 255, 255, self.pick(some))), *(self.pick(some) for _ in range(3))))


def framed(given):
    """A script as covering.c reads it, after its length."""
    return pack('<I', len(given)) + given


def made(seed):
    """The script of a seed, after its five choices."""
    grammar = Grammar(seed)
    return (grammar.choices() + grammar.script())[:LONGEST]
