"""Makes scripts out of known ones, for covering.c: cut, joined, repeated, and with characters that scripts rarely have.
Each list that the engine makes of a script becomes long by repetition, so that it needs more memory than there is."""
from bisect import bisect
from hashlib import sha256
from random import Random

from scripts import DEEPEST, FUNCTIONS, Grammar

# Characters of one to four bytes, some that are cut or wrong, and pieces of calls.
CHARACTERS = [*'éß‘’“”€…😀', *map(chr, (
    0, 0x1b, 0x7f, 0x85, 0x9c, 0x378, 0x61c, 0x2009, 0x200e, 0x2028, 0x202e, 0x2030, 0x203f, 0x2040, 0x2066, 0x2069,
    0x3000, 0xd7ff, 0xfeff, 0xfffd, 0x10ffff))]
WRONG = [b'\xff', b'\xc0\x80', b'\xe2\x80', b'\xe2', b'\xf0\x9f\x98', b'\xed\xa0\x80', b'\xf4\x90\x80\x80', b'\xc3',
         b'\xf8\x88', b'\x80']
PIECES = [b'#(', b'##(', b'###(', b'(', b')', b'))', b',', b',,', b"'", b'\n', b'\r\n', b'\t', b' ', b'#', b':', b'[',
          b']', b'10 ', b'20 ', b'-', b'.5', b'1,000', b'#(cm,;)', b"#(cm,')", b'#(rs)', b'#(rc)', b'#(hl)', b'#(zz,a)',
          b'#(ps,', b'#(ds,A,', b'#(cl,A)', b'#(dd,A)', b'#(da)', b'#(ss,A,a)', b'#(PS,x)', b'#(psx,y)', b'#[ps,a]']
LONGEST, REPEATED = 40000, (2, 3, 9, 40, 150, 400, 400, 12000)


def place_of(script):
    """A number below 2^64 that a script has."""
    return int.from_bytes(sha256(script).digest()[:8], 'big')


class Changes:
    """Makes scripts out of known ones, which come in the order of `place_of`."""

    def __init__(self, seed, known):
        self.random, self.ordered, self.grammar = Random(seed), known, Grammar(seed)
        self.pick = self.random.choice

    def known(self):
        """A known script. One that is added or removed changes few of the choices."""
        return self.ordered[bisect(self.ordered, self.random.getrandbits(64), key=place_of) % len(self.ordered)]

    def piece(self):
        """Something that is put into a script."""
        made = (lambda: self.pick(PIECES), lambda: self.pick(PIECES), lambda: self.pick(CHARACTERS).encode(),
                lambda: self.pick(WRONG), lambda: self.pick(list(FUNCTIONS)).encode(), self.part,
                lambda: self.grammar.call(DEEPEST - 1).encode('latin-1'), self.digits)
        return self.pick(made)()

    def digits(self):
        return self.grammar.number().encode()

    def part(self):
        """A part of a known script."""
        known = self.known()
        start = self.random.randrange(len(known) + 1)
        return known[start:start + self.pick((3, 10, 40, 200))]

    def changed(self, script):
        """A script with a piece more, less, or other."""
        start = self.random.randrange(len(script) + 1)
        dropped = self.pick((0, 0, 0, 1, 2, 8))
        return script[:start] + self.pick((self.piece, self.piece, bytes))() + script[start + dropped:]

    def repeated(self, script):
        """A script many times, or a part of it."""
        start = self.pick((0, 0, self.random.randrange(len(script) + 1)))
        length = self.pick((1, 2, 9, LONGEST, LONGEST))
        part, rest = script[start:start + length] or self.pick(PIECES), script[start + length:]
        return script[:start] + part * min(self.pick(REPEATED), LONGEST // len(part) + 1) + rest

    def filled(self, script):
        """A script behind a text or a form of any length: lists begin elsewhere in the memory."""
        text = self.pick((b'x', b'ab ', b'#(ds,e,f)', b'#(zz)')) * self.random.randrange(self.pick((40, 900, 4200)))
        return self.pick((b'#(ds,filled,(%b))%b', b'%b%b', b'#(eq,%b,a)%b', b"#(ps,%b)'%b")) % (text, script)

    def script(self):
        """A known script with up to four changes, which may be repeated, filled, or cut."""
        made = self.known()
        for _ in range(self.pick(range(5))):
            made = self.changed(made)
        if self.random.random() < .3:
            made = self.repeated(made)
        if self.random.random() < .3:
            made = self.filled(made)
        if self.random.random() < .15:
            made = made[:self.random.randrange(len(made) + 1)]
        return made[:LONGEST]


def changed(seed, known):
    """The script of a seed, after its five choices."""
    changes = Changes(seed, known)
    return changes.grammar.choices() + changes.script()
