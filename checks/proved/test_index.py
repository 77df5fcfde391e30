"""The index of the forms, which is built and dropped depending on the free cells, in many rooms."""
import random
import unittest

from trac import report, trace

WORKSPACE = 1


def many_forms():
    """Strings over some forms, which are called, redefined, cut and removed in random order, so often that an index of
    them is built; sometimes a long text takes the cells of the index."""
    draw = random.Random(13)
    names = [f'form{i}' for i in range(24)]
    calls = [f'#(ds,{name},a-{name})' for name in names]
    for _ in range(220):
        name, other = draw.choice(names), draw.choice(names)
        calls.append(draw.choice([
            f'#(cl,{name})', f'#(cl,{name},{other})', f'#(cl,{name}x)', f'#(cs,{name})',
            f'#(ss,{name},-,r)', f'#(ds,{name},b-{other})', f'#(ds,{name},##(cl,{other}))',
            f'#(dd,{name})', f'#(dd,x,x,{other},{name}x,{name})', f'#(cr,{name})']))
    long = 'a long text that fills the block ' * 9
    return "'".join(long if i % 60 == 59 else call for i, call in enumerate(calls)) + "'#(ln,/)'"


def crowded_forms():
    """Strings of the same kind, in which the forms take most of the cells at all times: the first
    one defines them all, and never more than four of them are gone. So in a room of just the peak
    an index never has the cells that it asks for, which are at most half of those that are free."""
    draw = random.Random(14)
    names = [f'form{i}' for i in range(24)]
    strings = [''.join(f'#(ds,{name},a-{name})' for name in names)]
    gone = set()
    for i in range(220):
        name, other = draw.choice(names), draw.choice(names)
        call = draw.choice([
            f'#(cl,{name})', f'#(cl,{name},{other})', f'#(cl,{name}x)', f'#(cs,{name})',
            f'#(ss,{name},-,r)', f'#(ds,{name},b-{other})', f'#(dd,{name})', f'#(cr,{name})'])
        if i % 60 == 59:
            call = 'a long text that fills the block ' * 3
        elif call.startswith('#(ds,'):
            gone.discard(name)
        elif call.startswith('#(dd,') and len(gone) < 4:
            gone.add(name)
        elif call.startswith('#(dd,'):
            call = f'#(cl,{name})'
        strings.append(call)
    return "'".join(strings) + "'"


class Index(unittest.TestCase):
    """An index of the forms uses free cells: in each room it is built and dropped at other times, and no result may
    depend on it."""

    def steps(self, script, cells):
        """For each step its need, the output before it, the size before it, and its rule."""
        printed, found = '', []
        for line in trace(script.encode(), '--steps', '1000000', '--cells', str(cells))[0][1:-1]:
            if line.startswith('        prints: '):
                printed += line[16:]
            else:
                found.append((int(line[27:33]), printed, int(line[21:27]), line[8:21].rstrip()))
        return found

    def test_no_room_tells_of_an_index(self):
        script = many_forms()
        output, count, peak, status = report(script)
        self.assertEqual(status, 0)
        steps = self.steps(script, 65536)
        self.assertEqual((len(steps), max(step[0] for step in steps)), (count, peak))
        self.assertEqual(self.steps(script, peak), steps)
        for cells in range(peak - 400, peak + 200):
            with self.subTest(cells=cells):
                fault = next((i for i, step in enumerate(steps) if step[0] > cells), None)
                if fault is None:
                    self.assertEqual(report(script, '--cells', str(cells)),
                                     (output, count, peak, 0))
                else:
                    held = max([step[0] for step in steps[:fault]], default=0)
                    self.assertEqual(report(script, '--cells', str(cells)),
                                     (steps[fault][1].encode(), fault, held, WORKSPACE))

    def test_a_run_without_an_index(self):
        script = crowded_forms()
        output, count, peak, status = report(script)
        self.assertEqual(status, 0)
        steps = self.steps(script, peak)
        self.assertEqual((len(steps), max(step[0] for step in steps)), (count, peak))
        # the first call that ends is the one that reads, and each call after it defines a form
        ends = [i for i, step in enumerate(steps) if step[3] == 'end of call']
        # 12 forms have an index of 64 cells, 16 and more have one of 128; fewer than 12 have none
        for first, last, cells in ((ends[12] + 1, ends[16], 64), (ends[16] + 1, count - 1, 128)):
            # the parenthesis that ends a call has left when the call looks for a form
            free = max(peak - (step[2] - 1) for step in steps[first:last + 1])
            self.assertLess(free, 2 * cells)
        self.assertEqual(self.steps(script, 65536), steps)
        self.assertEqual(report(script, '--cells', str(peak)), (output, count, peak, 0))
