"""Scripts with known results, for the checks that run them in more than one way."""
import functools
import glob
import os

from trac import TOP, report
from test_manual import PAIR, read as manual
from worked_rows import tables, text

# Unlike the other rows: calls of four functions in one string, a pointer before a gap, and bytes that are no text.
MORE = [b"#(ad,Apples5,Oranges7)#(bu,12,4)#(br,7,42)##(dv,1,0,(#(ps,Z!)))x'", b"#(ds,F,xay)#(ss,F,a)#(cc,F)#(pf,F)'",
        b"\xff\x00'"]


def worked():
    """The scripts whose results were worked out by hand."""
    return [text(row['input']) for rows in tables().values() for row in rows]


def examples():
    for name in sorted(glob.glob(os.path.join(TOP, 'examples', '*.trac'))):
        with open(name, 'rb') as file:
            yield file.read()


@functools.cache
def rows():
    """Scripts, and the options for each: the examples, the scripts of the manual, and the worked scripts, in ample
    room, with one cell too few, and with one step too few."""
    scripts = worked() + [script[:-1].encode() for script, _ in PAIR.findall(manual())] + [*examples(), *MORE]
    found = []
    for script in dict.fromkeys(scripts):
        output, steps, peak, status = report(script)
        found.append(Row(script, 65536, 1000000, output, steps, peak, status))
        for cells, allowed in ((peak, steps), (peak - 1, steps), (peak, max(steps - 1, 1))):
            found.append(Row(script, cells, allowed, *report(
                script, '--cells', str(cells), '--steps', str(allowed))))
    return found


class Row:
    """A script, a room and an allowance, and what `trac` does with them."""

    def __init__(self, script, cells, allowed, output, steps, peak, status):
        self.script, self.cells, self.allowed = script, cells, allowed
        self.output, self.steps, self.peak, self.status = output, steps, peak, status

    def __repr__(self):
        return f'{self.script!r} in {self.cells} cells and {self.allowed} steps'
