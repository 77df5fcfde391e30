#!/usr/bin/env python3
"""bench.py [--smoke | --growth | --beside FILE ..] [--only TEXT] [PROGRAM]: runs the built program on jobs of several
kinds, and prints a table.

Without PROGRAM it runs the proved program if that is built, and otherwise the program in C. With --smoke the jobs are
small, and only the output is checked: a wrong output is a failure, a slow run isn't. With --growth there is a job for
each function, of two lengths. With --only only the jobs whose names contain TEXT are run. m4 and valgrind add their
columns if they are installed.

With --beside the instructions of the program are compared with those of FILE. FILE is another processor of the
language, whose arguments are cells and steps, or its source in C, which gcc builds. This needs valgrind. These commands
make the comparison in docs/PERFORMANCE.md, which takes some minutes, and one job of it:

    bench/bench.py --beside bench/plain.c --beside bench/fast.c
    bench/bench.py --beside bench/plain.c --beside bench/fast.c --only Hanoi build/trac
"""
import argparse
import os
import random
import re
import shutil
import subprocess
import sys
import tempfile
import time

from growing import GROWING, GROWS, WORDS

TOP = os.path.dirname(os.path.dirname(os.path.abspath(__file__)))
PROVED = os.path.join(TOP, 'crates', 'trac_cli', 'out', 'trac_cli')
IN_C = os.path.join(TOP, 'build', 'trac')
CELLS = 4000000
LINE = 'A stitch in time saves nine; the rest is silence. '


class Job:
    """A script, its output, the cells that it moves, if that is known, and the same job for m4, if m4 can do it."""

    def __init__(self, name, script, printed, cells=None, m4=None):
        self.name, self.script, self.printed = name, script.encode(), printed.encode()
        self.cells, self.m4 = cells, m4


def hanoi(n, a='1', b='2', c='3'):
    return hanoi(n - 1, a, c, b) + f'{a}-{b} ' + hanoi(n - 1, c, b, a) if n else ''


def text_jobs(small):
    text = LINE * (20 if small else 60000)
    yield Job('plain text', text + "'", text, 2 * len(text), text)
    yield Job('protected text', f"#(ps,({text}))'", text, 2 * len(text), f"`{text}'")
    yield Job('ten strings of text', (text + "'") * 10, text * 10, 20 * len(text), text * 10)


def call_jobs(small):
    n = 4 if small else 9
    moves = ('#(ds,H,(#(gr,N,0,(#(cl,H,#(su,N,1),A,C,B)#(ps,A-B )#(cl,H,#(su,N,1),C,B,A)))))'
             f"#(ss,H,N,A,B,C)#(cl,H,{n},1,2,3)'")
    in_m4 = ("define(`H',`ifelse(eval($1>0),1,`H(decr($1),$2,$4,$3)$2-$3 H(decr($1),$4,$3,$2)')')"
             f'H({n},1,2,3)')
    yield Job('towers of Hanoi', moves, hanoi(n), None, in_m4)
    n = 50 if small else 28000
    count = f"#(ds,G,(#(gr,N,0,(#(cl,G,#(su,N,1))))))#(ss,G,N)#(cl,G,{n})'"
    yield Job('counting', count, '')
    n = 20 if small else 3000
    deep = f"#(ds,D,(#(gr,N,0,(#(ad,1,#(cl,D,#(su,N,1)))))))#(ss,D,N)#(ps,#(cl,D,{n}))'"
    yield Job('deep recursion', deep, str(n))
    n = 20 if small else 100000
    yield Job('open calls', '#(zz,' * n + ')' * n + "'", '')
    n = 10 if small else 2000
    sums = ('#(ds,G,(#(gr,N,0,(#(ds,Z,#(ml,#(ad,12345678901234567890,N),9876543210987654321))'
            f"#(cl,G,#(su,N,1))))))#(ss,G,N)#(cl,G,{n})#(cl,Z)'")
    yield Job('long numbers', sums, str((12345678901234567890 + 1) * 9876543210987654321))


def form_jobs(small):
    n = 20 if small else 1500
    defined = ''.join(f'#(ds,name{i},value {i})' for i in range(n))
    called = ''.join(f'#(cl,name{i * 7 % n})' for i in range(n))
    in_m4 = ''.join(f"define(`name{i}',`value {i}')" for i in range(n))
    in_m4 += ''.join(f'name{i * 7 % n}' + '()' for i in range(n))
    values = ''.join(f'value {i * 7 % n}' for i in range(n))
    yield Job(f'{n} forms', defined + called + "'", values, None, in_m4)
    n = 10 if small else 2000
    gaps = ('#(ds,F,(one AA two BB three CC four AA five BB six))#(ss,F,AA,BB,CC)'
            '#(ds,G,(#(gr,N,0,(#(ds,Z,#(cl,F,x1,yy2,zzz3))#(cl,G,#(su,N,1))))))'
            f"#(ss,G,N)#(cl,G,{n})#(cl,Z)'")
    yield Job('filling gaps', gaps, 'one x1 two yy2 three zzz3 four x1 five yy2 six')
    n = 50 if small else 20000
    walk = (f"#(ds,T,{'qwertyuiop' * (n // 10)})"
            "#(ds,R,(#(ds,X,#(cc,T,(#(ds,R))))#(cl,R)))#(cl,R)'")
    yield Job('walking by cc', walk, '')


def store_jobs(small):
    for n in (30, 60) if small else (1500, 4000, 16000, 64000):
        order = random.Random(n).choices(range(n), k=n)
        defined = ''.join(f'#(ds,entry{i},v{i})' for i in range(n))
        called = ''.join(f'#(cl,entry{i})' for i in order)
        in_m4 = ''.join(f"define(`entry{i}',`v{i}')" for i in range(n))
        in_m4 += ''.join(f'entry{i}()' for i in order)
        values = ''.join(f'v{i}' for i in order)
        yield Job(f'{n} forms at random', defined + called + "'", values, None, in_m4)
    n, turns = (20, 30) if small else (1000, 10000)
    store = ''.join(f'#(ds,entry{i},v{i})' for i in range(n)) + "#(ds,N,0)'"
    counted = "#(ds,N,##(ad,##(cl,N),1))'" * turns + "##(cl,N)'"
    yield Job(f'a counter among {n} forms', store + counted, str(turns))
    table = ''.join(f'#(ds,entry{i},v{i})' for i in range(10))
    called = ''.join(f'#(cl,entry{i * 7 % 10})' for i in range(turns))
    yield Job('a table of ten forms', table + called + "'",
              ''.join(f'v{i * 7 % 10}' for i in range(turns)))


def jobs(small):
    yield from text_jobs(small)
    yield from call_jobs(small)
    yield from form_jobs(small)
    yield from store_jobs(small)


# Of these jobs, those that are compared with other processors.
COMPARED = {'4000 forms at random', 'plain text', 'protected text', 'towers of Hanoi', 'long numbers',
            'a counter among 1000 forms'}


def repeated_jobs(small):
    """Jobs for that comparison only: recursions, and single calls, repeated a given number of times."""
    n = 20 if small else 2000
    sums = '#(ds,S,(#(gr,N,0,(#(cl,S,#(su,N,1),#(ad,A,#(ml,N,987654321)))),A)))#(ss,S,N,A)'
    yield Job('sums and products of a recursion', f"{sums}#(cl,S,{n},0)'", str(987654321 * n * (n + 1) // 2))
    count = '#(ds,G,(#(gr,N,0,(#(cl,G,#(su,N,1))))))#(ss,G,N)'
    yield Job(f'counting down from {5 * n // 2}', f"{count}#(cl,G,{5 * n // 2})'", '')
    yield Job('a name that is no function', '#(zz)' * 10 * n + "'", '')
    yield Job('empty strings', "'" * 5 * n, '')
    letter = '#(ds,L,Dear X of Y)#(ss,L,X,Y)'
    yield Job('a form of two gaps', letter + '##(cl,L,Ann,Bath)' * n + "'", 'Dear Ann of Bath' * n)
    yield Job('a form of two gaps, scanned again', letter + '#(cl,L,Ann,Bath)' * n + "'", 'Dear Ann of Bath' * n)
    names, values = 'ABCDEFGH', [4 * name for name in 'abcdefgh']
    eight = f"#(ds,E,{''.join(f'{name}. ' for name in names)})#(ss,E,{','.join(names)})"
    yield Job('a form of eight gaps, scanned again', eight + f"#(cl,E,{','.join(values)})" * n + "'",
              ''.join(f'{value}. ' for value in values) * n)
    walk = "#(ds,R,(#(ds,X,#(cc,T,(#(ds,R))))#(cl,R)))#(cl,R)'"
    yield Job('a shorter walk by cc', f"#(ds,T,{'qwertyuiop' * (3 * n // 20)}){walk}", '')
    n, number = (5, 5) if small else (17, 1597)
    fibonacci = '#(ds,F,(#(gr,2,N,N,(#(ad,#(cl,F,#(su,N,1)),#(cl,F,#(su,N,2)))))))#(ss,F,N)'
    yield Job(f'the number {n} of Fibonacci', f"{fibonacci}#(ps,#(cl,F,{n}))'", str(number))
    n = 200 if small else 20000
    yield Job('ad', '#(ad,12,34)' * n + "'", '46' * n)
    yield Job('eq', '#(eq,ab,ac,x,y)' * n + "'", 'y' * n)


def compared_jobs():
    yield from (job for job in jobs(False) if job.name in COMPARED)
    yield from repeated_jobs(False)


# A small process in between, since the memory of a new process counts from that of the one that
# made it.
BETWEEN = ('import os, sys; pid = os.posix_spawn(sys.argv[1], sys.argv[1:], os.environ); '
           'used = os.wait4(pid, 0)[2]; print(used.ru_maxrss * 1024, file=sys.stderr)')


def memory(words, given):
    """The greatest memory of a run, in bytes."""
    return int(run([sys.executable, '-c', BETWEEN] + words, given)[2].split()[-1])


def run(words, given):
    """Seconds, output, lines on standard error and status."""
    new_file = tempfile.TemporaryFile
    with new_file() as source, new_file() as output, new_file() as errors:
        source.write(given)
        source.seek(0)
        begun = time.perf_counter()
        status = subprocess.call(words, stdin=source, stdout=output, stderr=errors)
        took = time.perf_counter() - begun
        output.seek(0)
        errors.seek(0)
        return took, output.read(), errors.read().decode(), status


def instructions(words, given):
    """How many instructions a run takes, None without valgrind."""
    if not shutil.which('valgrind'):
        return None
    with tempfile.NamedTemporaryFile() as counts:
        tool = ['valgrind', '--tool=callgrind', f'--callgrind-out-file={counts.name}']
        lines = run(tool + words, given)[2]
    found = re.search(r'Collected : (\d+)', lines)
    return int(found.group(1)) if found else None


def cost(program, script):
    """The instructions of a job that grows."""
    return instructions([program, *WORDS], f"{script}'".encode())


def shown(number, unit=''):
    return '-' if number is None else f'{number:,.0f}{unit}'


def checked(job, words):
    took, output, lines, status = run(words + ['--report'], job.script)
    report = re.match(r'trac: (\d+) steps, peak (\d+) cells\n\Z', lines)
    if output != job.printed or status != 0 or not report:
        sys.exit(f'bench.py: {job.name}: wrong output, status {status}, {lines.strip()}')
    return took, int(report.group(1))


def limits(program):
    return [program, '--cells', str(CELLS), '--steps', '1000000000']


def compared(job, program, others):
    """A job's steps and instructions, and of each other processor its instructions, and the ratio of ours to them."""
    words = limits(program)
    _, steps = checked(job, words)
    ours = instructions(words, job.script)
    found = [job.name, shown(steps), shown(ours)]
    for other in others:
        theirs = [other, *words[2::2]]
        if run(theirs, job.script)[1] != job.printed:
            sys.exit(f'bench.py: {job.name}: wrong output of {other}')
        count = instructions(theirs, job.script)
        found += [shown(count), '-' if count is None else f'{ours / count:.2f}']
    return found


def row(job, program):
    words = limits(program)
    took, steps = min(checked(job, words) for _ in range(5))
    count = instructions(words, job.script)
    other, theirs = beside_m4(job)
    return (job.name, shown(steps), f'{took * 1000:.1f} ms',
            shown(steps / took), shown(job.cells and job.cells / took),
            shown(count), shown(count and count / steps), theirs, shown(other),
            shown((memory(words, job.script) - 8 * CELLS) / 1024, ' KB'))


def beside_m4(job):
    """The instructions and the best of five times of GNU m4 on the same job, if it can do it."""
    if not job.m4 or not shutil.which('m4'):
        return None, '-'
    words, given = ['m4', '-L0', '-'], job.m4.encode()
    best = min(run(words, given)[0] for _ in range(5))
    return instructions(words, given), f'{best * 1000:.1f} ms'


def built(path, folder):
    """A program; if its source is given, gcc builds it."""
    if not path.endswith('.c'):
        return path
    program = os.path.join(folder, os.path.basename(path)[:-2])
    subprocess.run(['gcc', '-O2', '-w', '-o', program, path], check=True)
    return program


def print_table(head, rows):
    print('| ' + ' | '.join(head) + ' |')
    print('|' + '---|' * len(head))
    for cells in rows:
        print('| ' + ' | '.join(cells) + ' |', flush=True)


def growth(program):
    """A row for each job that grows: its instructions, those of four times its length, and how
    often they are more, beside its bound."""
    start = cost(program, '')
    for name, n, script, bound in GROWING:
        small, great = (cost(program, script(k)) - start for k in (n, GROWS * n))
        yield (name, shown(n), shown(small), shown(great), f'{great / small:.2f}',
               f'{bound(GROWS * n) / bound(n):.0f}')


def main():
    usage, _, text = __doc__.partition(': ')
    reader = argparse.ArgumentParser(usage=usage, description=text, add_help=False,
                                     formatter_class=argparse.RawDescriptionHelpFormatter)
    for option in ('--smoke', '--growth'):
        reader.add_argument(option, action='store_true', help=argparse.SUPPRESS)
    reader.add_argument('--help', action='help', help=argparse.SUPPRESS)
    reader.add_argument('--only', default='', help=argparse.SUPPRESS)
    reader.add_argument('--beside', action='append', default=[], help=argparse.SUPPRESS)
    reader.add_argument('program', nargs='?', help=argparse.SUPPRESS)
    given = reader.parse_args()
    if not given.program:
        subprocess.run([os.path.join(TOP, 'trac'), '--help'], stdout=subprocess.DEVNULL, check=True)
    program = given.program or (PROVED if os.path.exists(PROVED) else IN_C)
    if given.smoke:
        done = [checked(job, [program]) for job in (*jobs(True), *repeated_jobs(True)) if given.only in job.name]
        print(f'bench.py: {len(done)} jobs printed what they should')
        return
    if given.growth:
        print_table(('job', 'length', 'instructions', 'of four times that', 'more', 'bound'),
                    growth(program))
        return
    if given.beside:
        with tempfile.TemporaryDirectory() as folder:
            others = [built(path, folder) for path in given.beside]
            columns = [word for path in others for word in (os.path.basename(path), 'ratio')]
            print_table(('job', 'steps', 'instructions', *columns),
                        (compared(job, program, others) for job in compared_jobs() if given.only in job.name))
        return
    head = ('job', 'steps', 'best of 5', 'steps/s', 'cells moved/s', 'instructions', 'each step',
            'm4 best of 5', 'm4 instructions', 'beside the block')
    print_table(head, (row(job, program) for job in jobs(False) if given.only in job.name))


if __name__ == '__main__':
    main()
