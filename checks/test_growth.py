"""The block bounds the cost of a step: for the scripts that cost the most for their steps, each in a block that is full
or has one cell left, the instructions grow at most in proportion to the length."""
import unittest
from concurrent.futures import ThreadPoolExecutor

from trac import IN_C, PROGRAM, instructions, report, run


def nearly(n):
    """A body in which a long text nearly stands at each place."""
    return f"#(ds,F,{'a' * 2 * n})"


# What the scripts do, and the script of a length.
WORST = {
    'ss of a text that nearly stands there': lambda n: nearly(n) + f"#(ss,F,{'a' * n}b)'",
    'ss of ten such texts': lambda n: nearly(n) + f"#(ss,F{(',' + 'a' * n + 'b') * 10})'",
    'ss of a text that stands there again and again': lambda n: nearly(n) + "#(ss,F,aaaaaaaa)'",
    'in of a text that nearly stands there': lambda n: nearly(n) + f"#(in,F,{'a' * n}b)'",
    'cl of gaps behind one long argument': lambda n: f"#(ds,F,{'b' * n})#(ss,F,,b)##(cl,F,{'a' * n})'",
    'cl of gaps for a long list of arguments, back and forth':
        lambda n: f"#(ds,F,{'ab' * n})#(ss,F,a{',' * n}b)##(cl,F,x{',' * n}y)'",
}
LENGTHS = 1000, 2000, 4000

# Its 10,000 steps took hours when a search took the product of two lengths.
LOOP = ('#(ds,A,aaaaaaa)#(ds,D,(#(ds,A,##(cl,A)##(cl,A)##(cl,A)##(cl,A))))#(cl,D)#(cl,D)#(cl,D)#(cl,D)#(cl,D)'
        '#(ds,F,##(cl,A)##(cl,A)##(cl,A)##(cl,A))#(ds,L,(#(ss,F,##(cl,A)b)#(cl,L)))#(cl,L)\'')


def took(script, cells):
    words = [PROGRAM, '--cells', str(cells), '--steps', '10000000']
    return instructions(words, script.encode()) - instructions(words, b"'")


class FullBlocks(unittest.TestCase):
    def test_costs_grow_as_the_lengths(self):
        for name, script in WORST.items():
            with self.subTest(name=name), ThreadPoolExecutor() as pool:
                scripts = [script(n) for n in LENGTHS]
                peaks = [report(text, '--steps', '10000000')[2] for text in scripts]
                for free in (0, 1):
                    least, more, most = pool.map(took, scripts, [peak + free for peak in peaks])
                    self.assertLess(more, 2.5 * least)
                    self.assertLess(most, 2.5 * more)

    def test_a_loop_over_a_search_ends_within_its_allowance(self):
        output, lines, status = run(LOOP, '--steps', '10000')
        self.assertEqual((output, status), (b'', 3))
        self.assertEqual(lines, 'trac: allowance of 10000 steps used up\n')


class Start(unittest.TestCase):
    def test_the_program_in_c_starts_at_once_whatever_the_cells(self):
        few, many = (instructions([IN_C, '--cells', str(cells)], b"#(ps,hello)'") for cells in (65536, 16777216))
        self.assertLess(abs(many - few), 5000)
