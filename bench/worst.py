"""worst.py [PROGRAM]: measures the time of a step in the worst known scripts, in nanoseconds for each cell of the
workspace, in full blocks and in blocks with an eighth of their cells free. With --smoke the blocks are small. A script
that doesn't fit in its block has no time. docs/PERFORMANCE.md says what follows from the greatest time."""
import os
import random
import re
import subprocess
import sys
import time

TOP = os.path.dirname(os.path.dirname(os.path.abspath(__file__)))
IN_C = os.path.join(TOP, 'build', 'trac')
CELLS, FEW = 65536, 8192
# A form is at most half of the block, because it is made from an argument of the same length; the rest is for the loop.
SPARE = 700
# How many steps of the loop are measured, and how many calls it contains.
STEPS, TIMES = 8000, 8


def letters(n):
    """A random text of two letters, the same each time."""
    return ''.join(random.Random(1).choices('ab', k=n))


def gaps(n, ordinal):
    """A form of n gaps with this ordinal."""
    return f"#(ds,F,{'b' * n})#(ss,F{',' * ordinal}b)"


# The repeated work of each script: the calls that make the forms, which take about n cells, and the repeated call.
WORST = {
    'pf of gaps with great ordinals': (lambda n: gaps(n - 600, 600), lambda n: '#(pf,F)'),
    'ss of short texts over a random text of two letters': (
        lambda n: f'#(ds,F,{letters(n)})', lambda n: '#(ss,F,abaac,babbc,aabbc,bbabc)'),
    'ss of a text that nearly stands there': (
        lambda n: f"#(ds,F,{'a' * n})", lambda n: f"#(ss,F,{'a' * 20}b)"),
    'in of a text that nearly stands there': (
        lambda n: f"#(ds,F,{'a' * n})", lambda n: f"#(in,F,{'a' * 20}b)"),
    'cl of gaps': (lambda n: gaps(n // 2, 1), lambda n: '#(eq,##(cl,F,x),)'),
    'cl of a text': (lambda n: f"#(ds,F,{'a' * (n // 2)})", lambda n: '#(eq,##(cl,F),)'),
    'ds in front of a long form': (
        lambda n: f"#(ds,A,x)#(ds,F,{'a' * (n // 2)})", lambda n: '#(ds,A,##(cl,F))#(ds,F,##(cl,A))'),
    'cn to and fro': (
        lambda n: f"#(ds,F,{'a' * (n // 2)})", lambda n: f'#(eq,##(cn,F,{n // 2}),)#(eq,##(cn,F,-{n // 2}),)'),
    'ln of many forms': (
        lambda n: ''.join(f'#(ds,k{i},)' for i in range(n // 10)), lambda n: '#(eq,##(ln,x),)'),
    'eq of two long texts': (lambda n: f"#(ds,F,{'a' * (n // 2)})", lambda n: '#(eq,##(cl,F),##(cl,F))'),
    'the product of two long numbers': (lambda n: f"#(ds,F,{'12' * (n // 4)})", lambda n: '##(ml,##(cl,F),##(cl,F),)'),
    'the union of two bit strings': (
        lambda n: f"#(ds,F,{'17' * (n // 6)})", lambda n: '#(eq,##(bu,##(cl,F),##(cl,F)),)'),
    'a long text in parentheses': (lambda n: '', lambda n: f"#(eq,({'a' * (n // 32)}),)"),
}


def measured(program, script, cells, steps):
    """The steps that a run took, and the seconds."""
    words = [program, '--cells', str(cells), '--steps', str(steps), '--report']
    start = time.monotonic()
    done = subprocess.run(words, input=script.encode(), stdout=subprocess.DEVNULL, stderr=subprocess.PIPE, check=False)
    took = time.monotonic() - start
    told = re.findall(r'(\d+) steps', done.stderr.decode()) or ['0']
    return int(told[-1]), took


def cost(program, worst, cells, free):
    """The number of steps of the loop that were made, and their seconds, without making the forms."""
    forms, call = worst
    size = (cells - free) // 2 - SPARE
    made = f"{forms(size)}'#(ds,L,({call(size) * TIMES}#(cl,L)))"
    before, start = measured(program, made + "'", cells, 100 * cells)
    steps, took = measured(program, made + "#(cl,L)'", cells, before + STEPS)
    return steps - before, took - start


def main(words):
    cells = FEW if '--smoke' in words else CELLS
    [program] = [word for word in words if word != '--smoke'] or [IN_C]
    print(f"{'in a block of ' + format(cells, ',') + ' cells':55}{'steps':>8}{'seconds':>9}{'ns':>7}")
    for name, worst in WORST.items():
        for free, how in ((0, 'full'), (cells // 8, 'nearly full')):
            steps, took = cost(program, worst, cells, free)
            shown = f'{took * 1e9 / steps / cells:7.2f}' if steps > STEPS / 2 else '      -'
            print(f"{name[:42] + ', ' + how:55}{steps:8,}{took:9.2f}{shown}", flush=True)


if __name__ == '__main__':
    main(sys.argv[1:])
