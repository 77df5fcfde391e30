"""The cost that grows with the length of the strings or the number of forms.

The cost is counted in instructions, which don't depend on other work of the machine. The limits are about one and a
half times what a run takes, except where two runs are compared."""
import itertools
import random
import unittest

from trac import PROGRAM, instructions, run

ROOM = ['--cells', '4000000', '--steps', '100000000']
# The slots of an index of 500 forms that is built for four times as many.
SLOTS = 4096


def mixed(name):
    """The characters of a name, mixed as the index of forms does it."""
    number = 0
    for character in reversed(name.encode()):
        number = (number + character + 1) * 11400714819323198485 % 2 ** 64
    return number


def names_of_one_slot(count):
    """Names of seven characters for which the index of 500 forms sends each search to one slot."""
    names = (f'k{i:06}' for i in itertools.count())
    found = (name for name in names if mixed(name) // 2 ** 32 % SLOTS == 7)
    return list(itertools.islice(found, count))


def calls_at_random(names):
    """A script that defines forms and calls them 20,000 times, each in its own string, and its output."""
    draw = random.Random(20000)
    strings = [f'#(ds,{name},v{i})' for i, name in enumerate(names)]
    called = draw.choices(range(len(names)), k=20000)
    strings += [f'#(cl,{names[i]})' for i in called]
    return "'".join(strings + ['']).encode(), ''.join(f'v{i}' for i in called).encode()


class Speed(unittest.TestCase):
    @classmethod
    def setUpClass(cls):
        cls.start = instructions([PROGRAM, *ROOM], b"'")

    def takes_at_most(self, limit, parts, script, wanted):
        """A script with a number of parts prints what it should, and each part takes at most a number of
        instructions."""
        output, lines, status = run(script, *ROOM)
        self.assertEqual((len(output), lines, status), (len(wanted), '', 0))
        self.assertEqual(output, wanted)
        took = instructions([PROGRAM, *ROOM], script) - self.start
        self.assertLess(took / parts, limit)

    def test_plain_text(self):
        text = b'A stitch in time saves nine. ' * 100000
        self.takes_at_most(20, len(text), text + b"'", text)

    def test_protected_text(self):
        text = b'A stitch in time saves nine. ' * 100000
        self.takes_at_most(20, len(text), b'#(ps,(' + text + b"))'", text)

    def test_many_forms(self):
        defined = ''.join(f'#(ds,k{i},v{i})' for i in range(1500))
        called = ''.join(f'#(cl,k{i})' for i in range(1500))
        wanted = ''.join(f'v{i}' for i in range(1500))
        self.takes_at_most(4500, 1500, (defined + called + "'").encode(), wanted.encode())

    def test_very_many_forms_at_random(self):
        order = random.Random(64000).sample(range(64000), 64000)
        defined = ''.join(f'#(ds,entry{i},v{i})' for i in range(64000))
        called = ''.join(f'#(cl,entry{i})' for i in order)
        # an index finds them; a walk from form to form takes a hundred times as much
        wanted = ''.join(f'v{i}' for i in order)
        self.takes_at_most(6500, 64000, (defined + called + "'").encode(), wanted.encode())

    def cost(self, script, wanted):
        words = ['--steps', '100000000']
        self.assertEqual(run(script, *words), (wanted, '', 0))
        return instructions([PROGRAM, *words], script)

    def test_names_of_one_slot(self):
        # such names make the index be given up: then the forms are found by a walk, and what it
        # takes to try again and again is no more than that
        unlike = calls_at_random([f'k{i:06}' for i in range(500)])
        alike = calls_at_random(names_of_one_slot(500))
        # (a call in a string of its own takes some 1,400 instructions by the index, and 9,000 by a walk)
        self.assertLessEqual(self.cost(*alike), 6.6 * self.cost(*unlike))

    def test_a_walk_through_a_form(self):
        walk = ')#(ds,R,(#(ds,X,#(cc,T,(#(ds,R))))#(cl,R)))#(cl,R)'
        script = '#(ds,T,' + 'qwertyuiop' * 2000 + walk + "'"
        self.takes_at_most(4500, 20000, script.encode(), b'')

    def test_deep_calls(self):
        deep = '#(ps,' * 20000 + 'x' + ')' * 20000
        self.takes_at_most(550, 20000, (deep + "'").encode(), b'x')
